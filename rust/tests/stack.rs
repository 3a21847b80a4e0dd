//! A chain unit is made, loaded, copied and used on a stack that could not hold one.

use std::mem::MaybeUninit;
use std::sync::Mutex;
use std::thread;

use rights::{Chains, Depth, Item, ItemSet, Refusal, Right, Shift};

/// Less than a unit's 36,876 bytes, and more than a call of the engine needs.
const STACK: usize = 32 * 1024;

static UNIT: Mutex<Chains> = Mutex::new(Chains::fresh());
static COPY: Mutex<Chains> = Mutex::new(Chains::fresh());
static PLACE: Mutex<MaybeUninit<Chains>> = Mutex::new(MaybeUninit::uninit());
static OTHER_PLACE: Mutex<MaybeUninit<Chains>> = Mutex::new(MaybeUninit::uninit());

fn on_a_small_stack(work: impl FnOnce() + Send + 'static) {
    assert!(STACK < size_of::<Chains>());
    let thread = thread::Builder::new().stack_size(STACK).spawn(work).expect("a thread");
    thread.join().expect("the work");
}

/// The images of a unit.
type Images = (Vec<u8>, Vec<u32>);

fn images(unit: &Chains) -> Images {
    (unit.grants().to_vec(), unit.loans().to_vec())
}

/// The images of a fresh unit, and of one in which a loan stands.
fn stored() -> (Images, Images) {
    let mut unit = Chains::fresh();
    let fresh = images(&unit);
    use_it(&mut unit);
    (fresh, images(&unit))
}

/// A command of each kind that makes something, a sweep and a check.
fn use_it(unit: &mut Chains) {
    assert_eq!(unit.create(Item(0), Item(3)), Ok(()));
    assert_eq!(unit.allow(Item(0), Item(0), Item(3), Right(1), Depth(2)), Ok(()));
    let set = ItemSet(1 << 0 | 1 << 3);
    assert_eq!(unit.allow_set(Item(0), set, Item(0), Right(1), Depth(2)), Ok(()));
    assert_eq!(unit.lend(Item(0), Item(3), Item(3), Right(1), Depth(1), Shift(7)), Ok(()));
    assert_eq!(unit.lend(Item(0), Item(3), Item(3), Right(1), Depth(1), Shift(6)), Ok(()));
    assert_eq!(unit.shift(Item(0), Shift(7)), Ok(()));
    assert_eq!(unit.sweep(Item(3)), Ok(1));
    let answer = unit.check(Item(3), Item(3), Right(1)).expect("an answer");
    assert_eq!(answer.persons(), [Item(0), Item(3)]);
}

#[test]
fn in_a_static() {
    let (fresh, used) = stored();
    on_a_small_stack(move || {
        let mut unit = UNIT.lock().expect("the unit");
        assert!(images(&unit) == fresh);
        use_it(&mut unit);
        assert!(images(&unit) == used);
        let mut copy = COPY.lock().expect("the copy");
        copy.clone_from(&unit);
        assert!(images(&copy) == used);
        unit.reset();
        assert!(images(&unit) == fresh);
        assert_eq!(unit.load(&used.0[1..], &used.1), Err(Refusal::WrongLength));
        assert!(images(&unit) == fresh);
        assert_eq!(unit.load(&used.0, &used.1), Ok(()));
        assert!(images(&unit) == used && *unit == *copy);
    });
}

#[test]
fn in_place() {
    let (fresh, used) = stored();
    on_a_small_stack(move || {
        let mut place = PLACE.lock().expect("the place");
        let unit = Chains::fresh_in(&mut place);
        assert!(images(unit) == fresh);
        use_it(unit);
        assert!(images(unit) == used);
        let mut place = OTHER_PLACE.lock().expect("the place");
        let refused = Chains::from_images_in(&mut place, &used.0, &used.1[1..]);
        assert!(refused.is_err_and(|refusal| refusal == Refusal::WrongLength));
        let unit = Chains::from_images_in(&mut place, &used.0, &used.1);
        assert!(unit.is_ok_and(|unit| images(unit) == used));
    });
}

#[cfg(feature = "alloc")]
mod on_the_heap {
    use super::*;
    use std::alloc::{GlobalAlloc, Layout, System};

    /// The system's heap, whose memory never happens to be 0.
    struct Heap;

    // SAFETY: memory is the system's, and is written only where that was just asked for.
    unsafe impl GlobalAlloc for Heap {
        unsafe fn alloc(&self, layout: Layout) -> *mut u8 {
            let memory = System.alloc(layout);
            if !memory.is_null() {
                memory.write_bytes(0xa5, layout.size());
            }
            memory
        }

        unsafe fn dealloc(&self, memory: *mut u8, layout: Layout) {
            System.dealloc(memory, layout);
        }
    }

    #[global_allocator]
    static HEAP: Heap = Heap;

    #[test]
    fn boxed() {
        let (fresh, used) = stored();
        on_a_small_stack(move || {
            let mut unit = Chains::boxed();
            assert!(images(&unit) == fresh);
            use_it(&mut unit);
            let loaded = Chains::boxed_from_images(&used.0, &used.1).expect("a unit");
            assert!(images(&loaded) == used && loaded == unit);
            let refused = Chains::boxed_from_images(&used.0[..0], &used.1);
            assert!(refused.is_err_and(|refusal| refusal == Refusal::WrongLength));
        });
    }
}
