//! Faults that can be planted in the interpreter, to show that a comparison with it can fail. Nothing is planted unless asked for, and
//! only in the thread that asks.

use std::cell::Cell;

/// A fault, in the words of what is done wrongly.
#[derive(Clone, Copy, Debug, PartialEq, Eq)]
pub enum Fault {
    /// An empty slot is taken for state 0, which is then entered.
    EmptySlotIsRoot,
    /// Once something was left, a run removes its event and does nothing else.
    IdleAfterFirst,
    /// The default's actions run at a restore too.
    DefaultsAtRestore,
    /// The states of a span are left lowest number first.
    LowestLeftFirst,
    /// At a post a full queue (9) is tested before the event and its argument (10).
    FullBeforeEvent,
    /// Room for a trace entry is tested after the effect, so that a send into a full queue gives 9 before 11.
    RoomAfterEffect,
    /// Components beside the path to a target go on by their slots.
    ComponentsBySlots,
    /// A guard is tested when its transition fires, and not before the step.
    GuardsWhenFired,
    /// A transition within one component leaves only that component.
    SpanOfOneComponent,
    /// A number outside its size (2) on a line goes before a wrong form (1).
    SizeBeforeForm,
    /// The plan's machine tests a slot only where its state is active.
    SlotsOfActiveOnly,
    /// A skip that ends past its block is accepted.
    SkipPastBlock,
}

/// Every fault, with the name that chooses it.
pub const FAULTS: [(Fault, &str); 12] = [
    (Fault::EmptySlotIsRoot, "empty-slot-is-root"),
    (Fault::IdleAfterFirst, "idle-after-first"),
    (Fault::DefaultsAtRestore, "defaults-at-restore"),
    (Fault::LowestLeftFirst, "lowest-left-first"),
    (Fault::FullBeforeEvent, "full-before-event"),
    (Fault::RoomAfterEffect, "room-after-effect"),
    (Fault::ComponentsBySlots, "components-by-slots"),
    (Fault::GuardsWhenFired, "guards-when-fired"),
    (Fault::SpanOfOneComponent, "span-of-one-component"),
    (Fault::SizeBeforeForm, "size-before-form"),
    (Fault::SlotsOfActiveOnly, "slots-of-active-only"),
    (Fault::SkipPastBlock, "skip-past-block"),
];

thread_local! {
    static PLANTED: Cell<Option<Fault>> = const { Cell::new(None) };
}

/// Plants a fault, or takes it out again.
pub fn plant(fault: Option<Fault>) {
    PLANTED.with(|planted| planted.set(fault));
}

/// Whether this fault is planted.
pub fn is(fault: Fault) -> bool {
    PLANTED.with(|planted| planted.get() == Some(fault))
}

/// The fault of a name.
pub fn named(name: &str) -> Option<Fault> {
    FAULTS.iter().find(|(_, n)| *n == name).map(|(f, _)| *f)
}
