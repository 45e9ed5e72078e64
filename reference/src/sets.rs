//! Target sets: bit i is site i.

pub type Set = u64;

pub fn only(site: usize) -> Set {
    1 << site
}

pub fn has(set: Set, site: usize) -> bool {
    set >> site & 1 == 1
}

pub fn without(set: Set, site: usize) -> Set {
    set & !only(site)
}

pub fn size(set: Set) -> u32 {
    set.count_ones()
}

/// The set of all of so many sites, 1 to 64.
pub fn all(sites: usize) -> Set {
    Set::MAX >> (64 - sites)
}

/// Whether the set names no site at or above `sites`, 1 to 64.
pub fn within(set: Set, sites: usize) -> bool {
    set & !all(sites) == 0
}

/// A target set: not empty, and within the sites.
pub fn is_target_set(set: Set, sites: usize) -> bool {
    set != 0 && within(set, sites)
}

/// The members, lowest first.
pub fn members(mut set: Set) -> impl Iterator<Item = usize> {
    std::iter::from_fn(move || {
        if set == 0 {
            return None;
        }
        let site = set.trailing_zeros() as usize;
        set &= set - 1;
        Some(site)
    })
}
