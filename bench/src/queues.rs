//! Put and serve on queues that hold so many frames of one length, and what each contender does.

use std::hint::black_box;

use reading::queues::{MAX_QUEUED, MAX_WAITING, QUEUES_BYTES, Queues};
use spatialjoin::numbers;

use crate::calls::{Calls, PlainC};
use crate::measure::{Contender, Task, Work};
use crate::operations::copy;
use crate::plain;

/// Where each queue's count stands.
const COUNTS: [usize; 2] = [1, 1 + (QUEUES_BYTES - 1) / 2];

/// The names of the rows whose cost per byte is compared.
pub const QUEUED_SHORT: &str = "16 frames of 64 bytes";
pub const QUEUED_LONG: &str = "16 frames of 1,024 bytes";

/// Queue 0, or both, with so many frames of this length: the frame that is put is the last of them, the
/// one that is served the first.
pub struct Waiting {
    pub name: &'static str,
    pub count: usize,
    pub length: usize,
    pub both: bool,
    /// As many bytes as a serve copies, for the contender that only copies.
    copied: Vec<Vec<u8>>,
}

impl Waiting {
    pub fn all() -> Vec<Self> {
        let waiting = |name, count, length, both| Waiting {
            name,
            count,
            length,
            both,
            copied: vec![vec![5; count * length]],
        };
        vec![
            waiting("a frame of 64 bytes", 1, 64, false),
            waiting("a frame of 1,024 bytes", 1, MAX_QUEUED, false),
            waiting(QUEUED_SHORT, MAX_WAITING, 64, false),
            waiting(QUEUED_LONG, MAX_WAITING, MAX_QUEUED, false),
            waiting("16 of 1,024 in each queue", MAX_WAITING, MAX_QUEUED, true),
        ]
    }

    /// The last frame, which is put.
    pub fn frame(&self) -> Vec<u8> {
        frame(self.count, self.length)
    }

    /// A buffer with all frames.
    pub fn buffer(&self) -> Vec<u8> {
        let mut queues = Queues::default();
        for waiting in &mut queues.waiting[..1 + usize::from(self.both)] {
            waiting.extend((1..=self.count).map(|number| frame(number, self.length)));
        }
        let mut buffer = vec![0; QUEUES_BYTES];
        queues.write(&mut buffer);
        buffer
    }

    /// The host sets the count back by hand; the place after it still has the last frame. So the queue
    /// is as full before each call.
    fn set_counts(&self, buffer: &mut [u8], less: usize) {
        buffer[COUNTS[0]] = (self.count - less) as u8;
        if self.both {
            buffer[COUNTS[1]] = self.count as u8;
        }
    }

    pub fn put(&self) -> Task<'_> {
        let work = |call: fn(&mut [u8], &[u8])| -> Work<'_> {
            let (mut buffer, frame) = (self.buffer(), self.frame());
            Box::new(move |times| {
                for _ in 0..times {
                    self.set_counts(&mut buffer, 1);
                    call(black_box(&mut buffer), black_box(&frame));
                }
                black_box(&mut buffer);
            })
        };
        let ours = work(|queues, frame| {
            black_box(numbers::put(queues, 0, frame));
        });
        let plain = work(|queues, frame| {
            let _ = black_box(plain::put(queues, 0, frame));
        });
        let plain_c = work(|queues, frame| {
            black_box(PlainC::put(queues, 0, frame));
        });
        let copying = work(|queues, frame| queues[34..34 + frame.len()].copy_from_slice(frame));
        self.task(self.length, [ours, plain, plain_c], copying)
    }

    pub fn serve(&self) -> Task<'_> {
        let work = |call: fn(&mut [u8], &mut [u8])| -> Work<'_> {
            let (mut buffer, mut out) = (self.buffer(), vec![0; MAX_QUEUED]);
            Box::new(move |times| {
                for _ in 0..times {
                    self.set_counts(&mut buffer, 0);
                    call(black_box(&mut buffer), black_box(&mut out));
                }
                black_box(&mut buffer);
            })
        };
        let ours = work(|queues, out| {
            black_box(numbers::serve(queues, out));
        });
        let plain = work(|queues, out| {
            let _ = black_box(plain::serve(queues, out));
        });
        let plain_c = work(|queues, out| {
            black_box(PlainC::serve(queues, out));
        });
        let bytes = self.count * self.length;
        self.task(bytes, [ours, plain, plain_c], copy(&self.copied))
    }

    fn task<'a>(
        &'a self,
        bytes: usize,
        [ours, plain, plain_c]: [Work<'a>; 3],
        copy: Work<'a>,
    ) -> Task<'a> {
        Task {
            name: self.name,
            bytes: bytes as f64,
            works: vec![
                (Contender::Ours, ours),
                (Contender::PlainRust, plain),
                (Contender::PlainC, plain_c),
                (Contender::Copy, copy),
            ],
        }
    }

    /// Ours puts and serves over and over, for a program that counts instructions.
    pub fn repeat(&self, times: usize) {
        let (mut buffer, mut out) = (self.buffer(), vec![0; MAX_QUEUED]);
        for _ in 0..times {
            self.set_counts(&mut buffer, 1);
            numbers::put(&mut buffer, 0, &self.frame());
            numbers::serve(&mut buffer, &mut out);
        }
    }
}

fn frame(number: usize, length: usize) -> Vec<u8> {
    (0..length).map(|index| (index * number) as u8).collect()
}
