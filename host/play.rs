// The string voice from Rust: lays a neck, begins a voice, plucks it and plays a second in blocks of 64, with a bend and a slide.

const N: usize = 90;
const POINTS: usize = N - 1;
const BLOCK: usize = 64;

#[repr(C)]
#[derive(Clone, Copy)]
struct Setup {
    segments: u32,
    tension: u32,
    stiffness: u32,
    viscous: u32,
    plain: u32,
    finger_stiffness: u16,
    finger_mass: u32,
    finger_place: u32,
    pluck_place: u32,
    bridge_place: u32,
    neck_place: u32,
}

#[repr(C)]
#[derive(Clone, Copy)]
struct Finger {
    newer: i32,
    older: i32,
    contact: i32,
}

#[repr(C)]
struct Changed {
    refusal: u32,
    setup: Setup,
}

// A signed number of 128 bits: ((high as u128) << 64 | low as u128) as i128.
#[repr(C)]
#[allow(dead_code)]
struct Wide {
    high: u64,
    low: u64,
}

#[repr(C)]
#[allow(dead_code)]
struct Book {
    stored: Wide,
    work: Wide,
    loss: Wide,
    rounding: Wide,
    count: u32,
}

#[repr(C)]
#[allow(dead_code)]
struct Started {
    refusal: u32,
    turn: u32,
    finger: Finger,
    book: Book, // for booked steps and bends; a block keeps none
}

#[repr(C)]
struct Played {
    count: usize,
    refusal: u32,
    turn: u32,
    finger: Finger,
}

#[rustfmt::skip]
extern "C" {
    fn sv_bend(setup: Setup, tension: u32) -> Changed;
    fn sv_slide(setup: Setup, place: u32) -> Changed;
    fn sv_lay_neck(setup: Setup, board: *const i32, board_length: usize, board_stiffness: u16, frets: *const u32, frets_length: usize, tip: i32,
                   fret_stiffness: u16, heights: *mut i32, heights_length: usize, stiffness: *mut u16, stiffness_length: usize) -> u32;
    fn sv_fresh_start(setup: Setup, first: *mut i32, first_length: usize, second: *mut i32, second_length: usize, contact: *mut i32, contact_length: usize,
                      height: i32, older_height: i32) -> Started;
    fn sv_play_block(setup: Setup, heights: *const i32, heights_length: usize, stiffness: *const u16, stiffness_length: usize,
                     first: *mut i32, first_length: usize, second: *mut i32, second_length: usize, contact: *mut i32, contact_length: usize,
                     turn: u32, finger: Finger, forces: *const i32, forces_length: usize, samples: *mut f32, samples_length: usize) -> Played;
}

fn accepted(call: &str, refusal: u32, step: usize) {
    if refusal != 0 {
        eprintln!("{call} refused with {refusal} at step {step}: docs/INTEGRATION.md says what the number means");
        std::process::exit(1);
    }
}

// The setup for the calls that follow a bend or a slide.
fn changed(call: &str, answer: Changed, step: usize) -> Setup {
    accepted(call, answer.refusal, step);
    answer.setup
}

fn main() {
    let mut setup = Setup {
        segments: N as u32, tension: 826, stiffness: 46, viscous: 8, plain: 0, finger_stiffness: 1, finger_mass: 933_479,
        finger_place: 28, pluck_place: 72, bridge_place: 84, neck_place: 68,
    };
    let (board, frets) = ([-700_000; POINTS], [5, 10, 14, 19, 23, 26, 30, 33, 36, 39, 42, 45]);
    let (mut heights, mut stiffness) = ([0; POINTS], [0; POINTS]);
    let (mut first, mut second, mut contact) = ([0; POINTS], [0; POINTS], [0; POINTS]);

    // Safety, here and below: each pointer is to an array of the length beside it, and no two mutable ones overlap.
    let refusal = unsafe {
        sv_lay_neck(setup, board.as_ptr(), POINTS, 2, frets.as_ptr(), frets.len(), -500_000, 6, heights.as_mut_ptr(), POINTS, stiffness.as_mut_ptr(), POINTS)
    };
    accepted("sv_lay_neck", refusal, 0);
    let started = unsafe { sv_fresh_start(setup, first.as_mut_ptr(), POINTS, second.as_mut_ptr(), POINTS, contact.as_mut_ptr(), POINTS, 800_000, 800_000) };
    accepted("sv_fresh_start", started.refusal, 0);

    let (mut turn, mut finger, mut made, mut loudest) = (started.turn, started.finger, 0usize, 0f32);
    let mut driver = [0f32; 2 * BLOCK]; // lent whole, also for the last block, which is shorter
    let mut bends = 0;
    while made < 44_100 {
        // bent by two semitones, 826 * 2^(1/3), within the second quarter of the second
        let tension = 826 + 215 * made.saturating_sub(11_025).min(11_025) as u32 / 11_025;
        if tension != setup.tension {
            setup = changed("sv_bend", unsafe { sv_bend(setup, tension) }, made);
            bends += 1;
        }
        if made >= 22_050 && setup.finger_place == 28 {
            setup = changed("sv_slide", unsafe { sv_slide(setup, 31) }, made); // the finger, up, goes from fret 7 to fret 8
        }
        let steps = BLOCK.min(44_100 - made);
        let mut forces = [0; 2 * BLOCK];
        for j in 0..steps {
            forces[2 * j] = if made + j < 200 { 80_000 * (made + j) as i32 } else { 0 }; // pulled harder for 200 steps, then let go
        }
        let played = unsafe {
            sv_play_block(setup, heights.as_ptr(), POINTS, stiffness.as_ptr(), POINTS, first.as_mut_ptr(), POINTS, second.as_mut_ptr(), POINTS,
                          contact.as_mut_ptr(), POINTS, turn, finger, forces.as_ptr(), 2 * steps, driver.as_mut_ptr(), driver.len())
        };
        made += played.count;
        accepted("sv_play_block", played.refusal, made);
        (turn, finger) = (played.turn, played.finger);
        driver[2 * played.count..].fill(0.0); // samples past the last frame made keep their contents
        loudest = driver.iter().step_by(2).fold(loudest, |most, sample| most.max(sample.abs()));
    }
    println!("{made} steps in blocks of {BLOCK}, loudest sample of the bridge pickup {loudest:.4}");
    println!("{bends} bends to L = {}, the finger slid to place {}", setup.tension, setup.finger_place);
}
