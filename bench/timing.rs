//! Measures the least time of a call, of a plain copy and of `str::from_utf8`.

use crate::codec::{Call, EachCall};
use crate::inputs::Inputs;
use crate::sets::{INPUT_LENGTH, at_page_start};
use std::hint::black_box;
use std::str;
use std::time::{Duration, Instant};

/// One batch of calls takes at least this long, so that the cost of reading the clock is negligible.
const BATCH: Duration = Duration::from_micros(40);

/// One batch of calls on texts takes at least this long. There is one test for UTF-8 in a batch, so its
/// cost is negligible too.
const TEXTS_BATCH: Duration = Duration::from_millis(1);
/// A batch of calls on texts makes at least this many runs. On long texts it makes exactly this
/// many, since `begin` adds none for those.
const LEAST_TEXTS_REPEATS: u32 = 16;

/// Inputs of this many bytes or more are measured in fewer rounds.
const LONG: usize = 1 << 20;

/// Long inputs are measured in one of `LONG_DISTANCE` rounds. Sets of many inputs, and texts, are
/// measured in one of `MANY_DISTANCE` rounds.
const LONG_DISTANCE: u32 = 100;
const MANY_DISTANCE: u32 = 4;

/// Something that is measured, and its least times. A run is one call, or a call on each of several
/// inputs. What the driver's option `--runs` repeats is a measurement here.
pub struct Measured {
    /// Makes this many runs.
    run: Box<dyn FnMut(u32)>,
    /// The number of calls in a run, and the length of each call's input.
    calls: usize,
    bytes: usize,
    /// The least duration of a batch, and the number of runs in it.
    enough: Duration,
    repeats: u32,
    /// It is measured in one of this many rounds.
    distance: u32,
    /// The least time of a run in each measurement, in seconds.
    bests: Vec<f64>,
}

impl Measured {
    /// Measures runs of one call on this many bytes.
    pub fn new(bytes: usize, mut run: impl FnMut() + 'static) -> Measured {
        let repeated = move |repeats| {
            for _ in 0..repeats {
                run();
            }
        };
        Measured {
            run: Box::new(repeated),
            calls: 1,
            bytes,
            enough: BATCH,
            repeats: 1,
            distance: if bytes < LONG { 1 } else { LONG_DISTANCE },
            bests: Vec::new(),
        }
    }

    /// Measures runs of one call on this input.
    pub fn of_input(call: Call, input: &'static [u8]) -> Measured {
        Measured::new(input.len(), call_run(call, input))
    }

    /// Measures runs of a call on each of the inputs.
    pub fn of_inputs(call: Call, inputs: Inputs) -> Measured {
        if inputs.count() == 1 {
            return Measured::of_input(call, inputs.bytes);
        }
        Measured {
            calls: inputs.count(),
            distance: MANY_DISTANCE,
            ..Measured::new(inputs.length, inputs_run(call, inputs))
        }
    }

    /// Measures runs of a call on each of the texts. A single call of the export makes all runs of a
    /// batch.
    pub fn of_texts(call: EachCall, texts: Inputs) -> Measured {
        let one = Measured::new(texts.length, || ());
        Measured {
            run: Box::new(texts_run(call, texts)),
            calls: texts.count(),
            enough: TEXTS_BATCH,
            repeats: LEAST_TEXTS_REPEATS,
            distance: one.distance.max(MANY_DISTANCE),
            ..one
        }
    }

    fn batch(&mut self) -> Duration {
        let start = Instant::now();
        (self.run)(self.repeats);
        start.elapsed()
    }

    /// Begins a measurement: finds how many runs make a batch long enough.
    fn begin(&mut self) {
        while self.bytes < LONG && self.repeats < 1 << 20 && self.batch() < self.enough {
            self.repeats *= 2;
        }
        self.bests.push(f64::INFINITY);
    }

    /// Measures one batch, unless this round is left out. An unmeasured run before it brings the inputs
    /// into the cache. Otherwise a codec would be faster if another one had just used these inputs.
    fn round(&mut self, round: u32) {
        if round % self.distance == 0 {
            if self.bytes < LONG {
                (self.run)(1);
            }
            let seconds = self.batch().as_secs_f64() / f64::from(self.repeats);
            if let Some(best) = self.bests.last_mut() {
                *best = best.min(seconds);
            }
        }
    }

    /// The least time of a run over all measurements, in seconds.
    fn least(&self) -> f64 {
        self.bests.iter().copied().fold(f64::INFINITY, f64::min)
    }

    /// The least time of a call, in seconds.
    pub fn seconds(&self) -> f64 {
        self.least() / self.calls as f64
    }

    /// The slowest measurement's time divided by the fastest one's.
    pub fn scatter(&self) -> f64 {
        self.bests.iter().copied().fold(0.0, f64::max) / self.least()
    }

    pub fn gigabytes(&self) -> f64 {
        self.bytes as f64 / self.seconds() / 1e9
    }
}

/// Makes one more measurement of each, in this many rounds. Each round measures all, one after another.
pub fn measure<'a>(measured: impl Iterator<Item = &'a mut Measured>, rounds: u32) {
    let mut all: Vec<&mut Measured> = measured.collect();
    for one in &mut all {
        one.begin();
    }
    for round in 0..rounds {
        for one in &mut all {
            one.round(round);
        }
    }
}

/// Makes a call with an empty buffer, so that nothing is copied.
fn make(call: Call, input: &[u8]) {
    let mut buf = [0u8; 0];
    black_box(unsafe { call(input.as_ptr(), input.len(), buf.as_mut_ptr(), 0) });
}

fn call_run(call: Call, input: &'static [u8]) -> impl FnMut() {
    move || make(call, black_box(input))
}

fn inputs_run(call: Call, inputs: Inputs) -> impl FnMut() {
    move || {
        for input in black_box(inputs).iter() {
            make(call, input);
        }
    }
}

fn texts_run(call: EachCall, texts: Inputs) -> impl FnMut(u32) {
    move |times| {
        let Inputs { bytes, length } = black_box(texts);
        black_box(unsafe { call(bytes.as_ptr(), bytes.len(), length, times as usize) });
    }
}

pub fn copy_run(input: &'static [u8]) -> impl FnMut() {
    // Half a page from the start: a load waits for a preceding store to the same offset in another page
    // (4K aliasing).
    let room = &mut at_page_start(&[0; INPUT_LENGTH + 2048])[2048..];
    move || {
        room.copy_from_slice(black_box(input));
        black_box(room.as_mut_ptr());
    }
}

pub fn utf8_run(text: &'static [u8]) -> impl FnMut() {
    move || {
        let _ = black_box(str::from_utf8(black_box(text)));
    }
}
