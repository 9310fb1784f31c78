//! A network at random, and walks through it.

use crate::random::Random;

/// A link: its number and the devices it joins.
pub type Link = (u8, u8, u8);

pub struct Network {
    pub nodes: Vec<u8>,
    pub routers: Vec<u8>,
    pub links: Vec<Link>,
}

/// The links of a path.
pub type Walk = Vec<u8>;

impl Network {
    /// A network in which every device is joined to one before it, with some links more; up to 64 of each.
    pub fn random(random: &mut Random) -> Self {
        let mut numbers: Vec<u8> = (0..64).collect();
        random.shuffle(&mut numbers);
        let most = if random.chance(100) { 64 } else { 20 };
        let routers = numbers[..random.below(9)].to_vec();
        let nodes = random.between(2, most - routers.len());
        let nodes = numbers[routers.len()..][..nodes].to_vec();
        let links = links(&nodes, &routers, random);
        Self {
            nodes,
            routers,
            links,
        }
    }

    /// Two to four pairs of nodes and three routers; every router is joined to all other devices, so there are many ways for each pair.
    pub fn with_many_ways(random: &mut Random) -> Self {
        let mut numbers: Vec<u8> = (0..64).collect();
        random.shuffle(&mut numbers);
        let routers = numbers[..3].to_vec();
        let nodes = numbers[3..][..2 * random.between(2, 4)].to_vec();
        let mut joined = vec![(0, 1), (0, 2), (1, 2)];
        joined
            .extend((0..3).flat_map(|router| (3..3 + nodes.len()).map(move |node| (node, router))));
        let devices = [&routers[..], &nodes].concat();
        random.shuffle(&mut numbers);
        let links = numbers.iter().zip(joined);
        let links = links.map(|(&number, (one, other))| (number, devices[one], devices[other]));
        Self {
            links: links.collect(),
            nodes,
            routers,
        }
    }

    /// The same as if every device were a router: walks go through nodes too.
    pub fn of_routers(&self) -> Self {
        Self {
            nodes: self.nodes.clone(),
            routers: [&self.nodes[..], &self.routers].concat(),
            links: self.links.clone(),
        }
    }

    /// A walk from a node to another over at most eight links and routers only, if one is found soon.
    pub fn walk(&self, from: u8, to: u8, random: &mut Random) -> Option<Walk> {
        let mut links = self.links.clone();
        random.shuffle(&mut links);
        let mut tries = 60;
        self.walk_on(&links, from, to, &mut vec![from], &mut tries)
    }

    fn walk_on(
        &self,
        links: &[Link],
        here: u8,
        to: u8,
        met: &mut Vec<u8>,
        tries: &mut u32,
    ) -> Option<Walk> {
        for &(number, one, other) in links {
            let next = match here {
                _ if here == one => other,
                _ if here == other => one,
                _ => continue,
            };
            if next == to {
                return Some(vec![number]);
            }
            if *tries == 0 || met.len() == 8 || met.contains(&next) || !self.routers.contains(&next)
            {
                continue;
            }
            *tries -= 1;
            met.push(next);
            if let Some(mut walk) = self.walk_on(links, next, to, met, tries) {
                walk.insert(0, number);
                return Some(walk);
            }
            met.pop();
        }
        None
    }
}

fn links(nodes: &[u8], routers: &[u8], random: &mut Random) -> Vec<Link> {
    let mut numbers: Vec<u8> = (0..64).collect();
    random.shuffle(&mut numbers);
    let devices = [routers, nodes].concat();
    let mut links = Vec::new();
    for (place, &device) in devices.iter().enumerate().skip(1) {
        let before = match routers.len().min(place) {
            0 => &devices[..place],
            count => &routers[..count],
        };
        links.push((device, random.pick(before)));
    }
    for _ in 0..random.below(12) {
        let (one, other) = (random.pick(&devices), random.pick(&devices));
        if one != other {
            links.push((one, other));
        }
    }
    let joined = numbers.iter().zip(links);
    joined
        .map(|(&number, (one, other))| match random.chance(500) {
            true => (number, one, other),
            false => (number, other, one),
        })
        .collect()
}
