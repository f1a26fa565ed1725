//! Where document 01 refuses and the Rust judges nothing: vector choice, clamp and scaling. Each
//! test names the refusal that Knobspindle answers with and shows what the Rust does instead.

mod common;

use common::*;
use oracle::door;
use oracle::terms::*;

const FOUR: [Vector; 4] = [[1, 2], [3, 4], [5, 6], [7, 8]];

fn select(plane: usize, mi_size: u8, block: usize, sub_x: bool, sub_y: bool) -> Vector {
    let vectors = [FOUR, FOUR];
    door::select_mv(&SelectArgs {
        vectors,
        second: false,
        plane,
        mi_size,
        block,
        sub_x,
        sub_y,
    })
}

/// Refusal 1, "halved height pairs sub-block b with b+2 (b = 2 or 3: refusal 1)".
#[test]
fn select_440_partner_missing() {
    assert_panics(&beyond(4, 4), || select(1, 0, 2, false, true));
    assert_panics(&beyond(4, 5), || select(1, 0, 3, false, true));
}

/// Refusal 1, "halved width pairs b with b+1 (b = 3: refusal 1; b = 1 pairs with 2, as the Rust)".
#[test]
fn select_422_partner_missing() {
    assert_panics(&beyond(4, 4), || select(1, 0, 3, true, false));
    assert_eq!(select(1, 0, 1, true, false), [4, 5]);
}

/// Refusal 1, sub-block not 0..3: the Rust looks at it unless it averages all four.
#[test]
fn select_sub_block_4() {
    assert_panics(&beyond(4, 4), || select(0, 0, 4, false, false));
    assert_eq!(select(1, 0, 4, true, true), [4, 5]);
}

/// Refusal 1: the Rust takes a plane above 2 for chroma, a block size above 12 for a large block.
#[test]
fn select_plane_3_and_size_13() {
    assert_eq!(select(3, 0, 0, true, true), [4, 5]);
    assert_eq!(select(1, 13, 0, true, true), [1, 2]);
}

/// Refusal 9: the Rust takes any component; sums of the largest wrap.
#[test]
fn select_component_32768() {
    let mut a = SelectArgs {
        vectors: [[[32768, -32768]; 4]; 2],
        ..SelectArgs::default()
    };
    assert_eq!(door::select_mv(&a), [32768, -32768]);
    (a.plane, a.sub_x, a.sub_y) = (1, true, true);
    assert_eq!(door::select_mv(&a), [32768, -32768]);
    a.vectors = [[[1 << 30; 2]; 4]; 2];
    assert_eq!(door::select_mv(&a), [0, 0]);
}

fn clamp(grid: Grid, vector: Vector, plane: usize) -> Vector {
    door::clamp_mv(&ClampArgs {
        grid,
        vector,
        plane,
        sub_x: true,
        sub_y: true,
    })
}

/// Refusal 1, block size above 12.
#[test]
fn clamp_size_13() {
    assert_panics(&beyond(13, 13), || clamp(grid(0, 0, 1, 1, 13), [0, 0], 0));
}

/// Refusal 1: the Rust takes plane 3 for chroma.
#[test]
fn clamp_plane_3() {
    assert_eq!(clamp(grid(0, 0, 8, 8, 3), [5, -5], 3), [5, -5]);
    assert_eq!(clamp(grid(0, 0, 8, 8, 3), [5, -5], 0), [10, -10]);
}

/// Refusal 2: the Rust clamps by whatever grid it is given.
#[test]
fn clamp_grid_out_of_range() {
    // No rows and columns at all.
    assert_eq!(clamp(grid(0, 0, 0, 0, 3), [1000, -1000], 0), [48, -192]);
    // The block below and right of the frame, and above and left of it.
    assert_eq!(clamp(grid(1, 1, 1, 1, 3), [0, 0], 0), [0, 0]);
    assert_eq!(clamp(grid(4, 4, 1, 1, 3), [0, 0], 0), [-336, -336]);
    assert_eq!(clamp(grid(-4, -4, 8, 8, 3), [0, 0], 0), [320, 320]);
    // More than 8192 rows and columns.
    assert_eq!(clamp(grid(8192, 0, 8193, 8193, 3), [9, 9], 0), [18, 18]);
}

/// Refusal 9: the Rust doubles any component; from 2^30 on that wraps and the sign turns.
#[test]
fn clamp_component_32768() {
    let wide = grid(4000, 4000, 8192, 8192, 3);
    assert_eq!(clamp(wide, [32768, -32768], 0), [65536, -65536]);
    let low = -4000 * 128 - 192;
    assert_eq!(clamp(wide, [1 << 30, 1 << 30], 0), [low, low]);
}

fn scale(reference: i32, frame: i32, x: i32, component: i32) -> (i32, i32) {
    let a = ScaleArgs {
        ref_width: reference,
        ref_height: 1,
        frame_width: frame,
        frame_height: 1,
        x,
        vector: [0, component],
        ..ScaleArgs::default()
    };
    let s = door::scale_mv(&a);
    (s.start_x, s.step_x)
}

/// Refusal 5, "201 to 100 and 1 to 17: refusal 5".
#[test]
fn scale_reference_not_allowed() {
    assert_eq!(scale(201, 100, 0, 0), (0, 32));
    assert_eq!(scale(1, 17, 0, 0), (0, 0));
    assert_eq!(scale(300, 100, 0, 0), (0, 48));
}

/// Refusal 5, sizes not 1..65536.
#[test]
fn scale_sizes_out_of_range() {
    assert_panics("attempt to divide by zero", || scale(1, 0, 0, 0));
    assert_eq!(scale(0, 1, 5, 0), (0, 0));
    assert_eq!(scale(-1, 1, 5, 0), (-80, -16));
    assert_eq!(scale(65537, 65537, 5, 0), (80, 16));
    // 131072 x 2^14 wraps: the step turns negative.
    assert_eq!(scale(131_072, 65_536, 0, 0), (0, -32));
}

/// Refusal 6, x or y not 0..65535: the Rust takes any, and twice as large 65536 wraps.
#[test]
fn scale_position_out_of_range() {
    assert_eq!(scale(100, 100, -1, 0), (-16, 16));
    assert_eq!(scale(100, 100, 65_536, 0), (1_048_576, 16));
    assert_eq!(scale(200, 100, 65_535, 0), (2_097_120, 32));
    assert_eq!(scale(200, 100, 65_536, 0), (-2_097_152, 32));
}

/// Refusal 9, outside -65534..65534 sixteenths: the Rust takes any, and twice as large 65536 wraps.
#[test]
fn scale_component_out_of_range() {
    assert_eq!(scale(200, 100, 0, 65_534), (131_068, 32));
    assert_eq!(scale(200, 100, 0, 65_535), (131_070, 32));
    assert_eq!(scale(200, 100, 0, 65_536), (-131_072, 32));
    assert_eq!(scale(200, 100, 0, -65_536), (-131_072, 32));
}

/// Refusal 1: the Rust takes plane 3 for chroma.
#[test]
fn scale_plane_3() {
    let mut a = ScaleArgs {
        ref_width: 3,
        ref_height: 3,
        frame_width: 2,
        frame_height: 2,
        sub_x: true,
        sub_y: true,
        plane: 1,
        x: 3,
        y: 3,
        vector: [0, 0],
    };
    let chroma = door::scale_mv(&a);
    a.plane = 3;
    assert_eq!(door::scale_mv(&a), chroma);
    a.plane = 0;
    assert_ne!(door::scale_mv(&a), chroma);
}
