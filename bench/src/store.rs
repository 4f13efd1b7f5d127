//! The reports of a symbol, or of a participant in it, that stand, with their summary at hand: no call goes over them.

use crate::matrix::{Cells, LastRule};
use crate::message::Content;
use crate::summary::{Mark, Summary};
use std::collections::{BTreeMap, BTreeSet};
use std::num::NonZeroU32;

/// What a report does to a summary.
#[derive(Clone, Copy)]
pub struct Effect {
    /// Ten-thousandths of a dollar.
    price: u64,
    /// Shares.
    size: u32,
    /// A letter.
    participant: u8,
    /// Whether it may become the high and the low.
    high_low: bool,
    /// When it becomes the last.
    last: LastRule,
    /// Whether its shares count.
    volume: bool,
}

impl Effect {
    /// What a participant's report of this content does, by the consolidated columns (0) or the participant's (1).
    pub fn new(participant: u8, content: &Content, cells: &Cells, column: usize) -> Self {
        Effect {
            price: content.price,
            size: content.size,
            participant,
            high_low: cells.high_low[column],
            last: cells.last[column],
            volume: cells.volume,
        }
    }

    fn shares(&self) -> u64 {
        u64::from(self.size) * u64::from(self.volume)
    }

    fn mark(&self, place: NonZeroU32) -> Mark {
        Mark {
            price: self.price,
            place,
            participant: self.participant,
        }
    }
}

/// Effects by place, with the keys by which the ends of their summary are found.
#[derive(Default)]
pub struct Store {
    effects: BTreeMap<NonZeroU32, Effect>,
    /// The prices of the effects that may become the high and the low.
    prices: BTreeSet<(u64, NonZeroU32)>,
    /// The places of the effects that always become the last.
    always: BTreeSet<NonZeroU32>,
    /// The places of the effects that become the last only under a condition: if there is none, or after their own
    /// participant's.
    setters: BTreeSet<NonZeroU32>,
    /// The places of the effects that become the last behind their own participant's, by participant.
    same: BTreeSet<(u8, NonZeroU32)>,
    volume: u64,
}

impl Store {
    /// Puts an effect at a vacant place, or another one in place of the one that is there.
    pub fn put(&mut self, place: NonZeroU32, effect: Effect) {
        let old = self.effects.insert(place, effect);
        self.change(place, old, Some(effect));
    }

    /// Takes the effect from a place.
    pub fn take(&mut self, place: NonZeroU32) {
        let old = self.effects.remove(&place);
        self.change(place, old, None);
    }

    /// Changes the keys and the volume from those of the one effect to those of the other, as far as they differ.
    fn change(&mut self, place: NonZeroU32, old: Option<Effect>, new: Option<Effect>) {
        let price = |effect: Effect| effect.high_low.then_some((effect.price, place));
        let always = |effect: Effect| (effect.last == LastRule::Always).then_some(place);
        let setter = |effect: Effect| {
            matches!(effect.last, LastRule::SameMarket | LastRule::FirstOnly).then_some(place)
        };
        let same = |effect: Effect| {
            (effect.last == LastRule::SameMarket).then_some((effect.participant, place))
        };
        exchange(&mut self.prices, old.and_then(price), new.and_then(price));
        exchange(&mut self.always, old.and_then(always), new.and_then(always));
        exchange(
            &mut self.setters,
            old.and_then(setter),
            new.and_then(setter),
        );
        exchange(&mut self.same, old.and_then(same), new.and_then(same));
        self.volume += new.map_or(0, |effect| effect.shares());
        self.volume -= old.map_or(0, |effect| effect.shares());
    }

    /// The summary of the effects by rising place.
    pub fn summary(&self) -> Summary {
        Summary {
            open: self.open(),
            high: self.high(),
            low: self.prices.first().and_then(|(_, place)| self.mark(*place)),
            last: self.last(),
            volume: self.volume,
            trades: self.effects.len() as u32,
        }
    }

    fn mark(&self, place: NonZeroU32) -> Option<Mark> {
        Some(self.effects.get(&place)?.mark(place))
    }

    /// The first that becomes the last, always or under a condition.
    fn open(&self) -> Option<Mark> {
        let firsts = [self.always.first(), self.setters.first()];
        self.mark(*firsts.into_iter().flatten().min()?)
    }

    /// The highest price, the earliest among equals.
    fn high(&self) -> Option<Mark> {
        let (price, _) = *self.prices.last()?;
        let (_, place) = self.prices.range((price, NonZeroU32::MIN)..).next()?;
        self.mark(*place)
    }

    /// The greatest place that always becomes the last, or without one the first setter; and then the greatest place
    /// after it that becomes the last behind that one's participant.
    fn last(&self) -> Option<Mark> {
        let base = *self.always.last().or_else(|| self.setters.first())?;
        let base = self.mark(base)?;
        let participant = base.participant;
        let after = (participant, base.place)..=(participant, NonZeroU32::MAX);
        match self.same.range(after).next_back() {
            Some((_, place)) => self.mark(*place),
            None => Some(base),
        }
    }
}

/// Exchanges one key for another, if they differ.
fn exchange<K: Ord>(keys: &mut BTreeSet<K>, old: Option<K>, new: Option<K>) {
    if old == new {
        return;
    }
    if let Some(old) = old {
        keys.remove(&old);
    }
    if let Some(new) = new {
        keys.insert(new);
    }
}
