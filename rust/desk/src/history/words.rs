//! The counts of a section in words.

use crate::history::chart::Counts;

/// All that are not 0; nothing if all are.
pub fn counted(counts: &Counts) -> Vec<String> {
    let [success, errors, reserved] = counts.replies;
    let all = [
        (counts.time_codes, "time-code", "time-codes"),
        (counts.early, "came early", "came early"),
        (counts.late_time_codes, "came late", "came late"),
        (counts.out_of_sequence, "out of sequence", "out of sequence"),
        (
            counts.reported,
            "reading that reported lateness",
            "readings that reported lateness",
        ),
        (counts.requests, "request taken", "requests taken"),
        (counts.starts, "start", "starts"),
        (success, "reply (success)", "replies (success)"),
        (errors, "reply (error)", "replies (error)"),
        (reserved, "reply (reserved)", "replies (reserved)"),
        (counts.late, "given up as late", "given up as late"),
        (counts.not_started, "not started", "not started"),
        (counts.refused, "refused", "refused"),
    ];
    let counted = all.iter().filter(|(count, ..)| *count > 0);
    counted
        .map(|&(count, one, many)| format!("{count} {}", if count == 1 { one } else { many }))
        .collect()
}
