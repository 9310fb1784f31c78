//! Whether a box is blank, and why it is or is not.

/// The call before the question.
#[derive(Clone, Copy, Debug, Default, PartialEq, Eq)]
pub enum Moment {
    #[default]
    Start,
    Clear,
    Load,
    Event,
    Lend,
}

#[derive(Clone, Copy, Debug, PartialEq, Eq)]
pub enum Blank {
    AtTheStart,
    AfterAClear,
    AfterALoad,
    AfterAnEvent,
    AfterLending,
    Plan,
    PlanAlone,
    Last,
    Seen,
    Reported,
    Least,
    Greatest,
    Several,
}

impl Blank {
    /// In their order.
    pub const ALL: [(Self, &'static str); 13] = [
        (Self::AtTheStart, "at the start"),
        (Self::AfterAClear, "after a clear"),
        (Self::AfterALoad, "after a refused load"),
        (Self::AfterAnEvent, "after a refused event"),
        (Self::AfterLending, "after five lent that are all 0"),
        (Self::Plan, "for a plan and the five"),
        (Self::PlanAlone, "for a plan alone"),
        (Self::Last, "for the last clock alone"),
        (Self::Seen, "for seen alone"),
        (Self::Reported, "for reported alone"),
        (Self::Least, "for the least interval alone"),
        (Self::Greatest, "for the greatest interval alone"),
        (Self::Several, "for several of the five"),
    ];

    /// By what is known of the box, its five numbers and the call before.
    pub fn of(moment: Moment, has_plan: bool, five: [u32; 5]) -> Self {
        let five = five.map(|number| number != 0);
        match (has_plan, five) {
            (false, [false, false, false, false, false]) => Self::after(moment),
            (true, [false, false, false, false, false]) => Self::PlanAlone,
            (true, _) => Self::Plan,
            (false, [true, false, false, false, false]) => Self::Last,
            (false, [false, true, false, false, false]) => Self::Seen,
            (false, [false, false, true, false, false]) => Self::Reported,
            (false, [false, false, false, true, false]) => Self::Least,
            (false, [false, false, false, false, true]) => Self::Greatest,
            (false, _) => Self::Several,
        }
    }

    fn after(moment: Moment) -> Self {
        match moment {
            Moment::Start => Self::AtTheStart,
            Moment::Clear => Self::AfterAClear,
            Moment::Load => Self::AfterALoad,
            Moment::Event => Self::AfterAnEvent,
            Moment::Lend => Self::AfterLending,
        }
    }

    pub fn is_blank(self) -> bool {
        use Blank::{AfterAClear, AfterALoad, AfterAnEvent, AfterLending, AtTheStart};
        [
            AtTheStart,
            AfterAClear,
            AfterALoad,
            AfterAnEvent,
            AfterLending,
        ]
        .contains(&self)
    }
}
