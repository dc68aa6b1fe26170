//! What allocates nothing: drawing with lent memory or a workspace, a label's bands, a refusal.

use std::alloc::{GlobalAlloc, Layout, System};
use std::cell::Cell;

use mosszephyr::{
    bounds, draw, draw_band, draw_in_bands, placement, workspace_words, Label, Origin, Path, Point,
    Refusal, Transform, Workspace, MOST_CELLS,
};

/// The system's memory, each taking counted for its thread.
struct Counting;

thread_local! {
    static TAKEN: Cell<usize> = const { Cell::new(0) };
}

#[global_allocator]
static COUNTING: Counting = Counting;

// SAFETY: the system's allocator does the work; counting takes no memory.
unsafe impl GlobalAlloc for Counting {
    unsafe fn alloc(&self, layout: Layout) -> *mut u8 {
        TAKEN.with(|taken| taken.set(taken.get() + 1));
        System.alloc(layout)
    }

    unsafe fn dealloc(&self, memory: *mut u8, layout: Layout) {
        System.dealloc(memory, layout);
    }
}

/// How often memory is taken.
fn taken(work: impl FnOnce()) -> usize {
    let before = TAKEN.with(Cell::get);
    work();
    TAKEN.with(Cell::get) - before
}

/// Upright lines through all columns: 300 x 60 pixels have more places than there is room for.
fn comb() -> Path {
    let mut path = Path::new();
    path.move_to((0.5, -1.0));
    for column in (0..300u16).step_by(2) {
        let x = f32::from(column) + 0.5;
        path.line_to((x, -1.0)).line_to((x, 61.0));
        path.line_to((x + 1.0, 61.0)).line_to((x + 1.0, -1.0));
    }
    path
}

#[test]
fn takings_are_counted() {
    assert_eq!(taken(|| drop(vec![0u8; 100])), 1);
    assert!(taken(|| drop(Workspace::new())) > 0);
    assert!(taken(|| drop(draw(comb(), &Label::new(300, 60)))) > 0);
}

#[test]
fn a_workspace_takes_nothing_more() {
    let (path, label) = (comb(), Label::new(300, 60));
    let (mut workspace, mut mask) = (Workspace::new(), vec![0; 300 * 60]);
    let drawing = taken(|| {
        workspace.draw(&path, &label, &mut mask).unwrap();
        workspace.draw(&path, &Label::new(7, 5), &mut mask).unwrap();
        let refused = workspace.draw([1], &label, &mut mask);
        assert_eq!(refused.unwrap_err().number(), 8);
    });
    assert_eq!(drawing, 0);
}

#[test]
fn bands_take_nothing() {
    let (path, label) = (comb(), Label::new(300, 60));
    let (mut workspace, mut buffer) = (Workspace::new(), vec![0; 300 * 59]);
    let mut rows = 0;
    let printing = taken(|| {
        let mut bands = workspace.bands(&path, &label, &mut buffer).unwrap();
        while let Some(band) = bands.next() {
            rows += band.rows().len();
        }
    });
    assert_eq!((printing, rows), (0, 60));
}

#[test]
fn lent_memory_is_enough() {
    let (path, label) = (comb(), Label::new(300, 60));
    let mut mask = vec![0; 300 * 60];
    let mut words = vec![0; workspace_words(60, MOST_CELLS).unwrap()];
    let identity = Transform::identity();
    let drawing = taken(|| {
        let refused = draw_band(&path, &label, 0..60, &mut mask, &mut words);
        assert_eq!(refused.unwrap_err().number(), 13);
        draw_in_bands(&path, &label, 0..60, 30, &mut mask, &mut words).unwrap();
        bounds(&path, identity).unwrap();
        placement(&path, identity, Point::ZERO, Origin::TopLeft).unwrap();
        assert_eq!((path.commands().count(), path.coordinates()), (601, 1202));
    });
    assert_eq!(drawing, 0);
}

#[test]
fn a_label_too_large_takes_nothing() {
    let path = comb();
    let spaced = Label {
        pitch: usize::MAX,
        ..Label::new(4, 3)
    };
    let refusing = taken(|| {
        let large = draw(&path, &Label::new(4097, 1));
        assert_eq!(large, Err(Refusal::Size));
        let larger = draw(&path, &Label::new(usize::MAX, usize::MAX));
        assert_eq!(larger, Err(Refusal::Size));
        assert_eq!(draw(&path, &spaced), Err(Refusal::Pitch));
    });
    assert_eq!(refusing, 0);
}
