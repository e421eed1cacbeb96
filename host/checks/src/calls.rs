//! The calls of `include/controller.h`, for the engine and for the two in plain Rust.

pub trait Calls {
    /// What they are called where a comparison fails.
    const NAME: &'static str;

    fn start(number: u32, bit: u8, image: &mut [u8], out: &mut [u8], length: &mut usize) -> u8;
    fn tray(image: &mut [u8], tray: &[u8], out: &mut [u8], length: &mut usize) -> u8;
    fn frame(bytes: &[u8], round: u32) -> u8;
    /// Decision, round, king, then the sizes of heard, candidates and echoes.
    fn answers(image: &[u8]) -> [u32; 6];
    /// The heard number at a place, and the round of the tray that first brought it.
    fn first_heard(image: &[u8], place: u32) -> (u32, u32);

    /// Every heard number with its first round, as a host asks for them.
    fn record(image: &[u8]) -> Vec<(u32, u32)> {
        let [_, _, _, heard, ..] = Self::answers(image);
        (0..heard)
            .map(|place| Self::first_heard(image, place))
            .collect()
    }
}

/// The compiled engine, through its C calls.
pub struct Engine;

/// The reference.
pub struct Reference;

/// The one that works in the image, for speed.
pub struct InPlace;

macro_rules! calls_of {
    ($name:ty, $package:ident) => {
        impl Calls for $name {
            const NAME: &'static str = stringify!($package);

            fn start(n: u32, bit: u8, image: &mut [u8], out: &mut [u8], len: &mut usize) -> u8 {
                $package::start(n, bit, image, out, len)
            }

            fn tray(image: &mut [u8], tray: &[u8], out: &mut [u8], length: &mut usize) -> u8 {
                $package::tray(image, tray, out, length)
            }

            fn frame(bytes: &[u8], round: u32) -> u8 {
                $package::frame(bytes, round)
            }

            fn answers(image: &[u8]) -> [u32; 6] {
                [
                    u32::from($package::decision(image)),
                    $package::round(image),
                    $package::king(image),
                    $package::heard(image),
                    $package::candidates(image),
                    $package::echoes(image),
                ]
            }

            fn first_heard(image: &[u8], place: u32) -> (u32, u32) {
                (
                    $package::heard_number(image, place),
                    $package::first_round(image, place),
                )
            }
        }
    };
}

calls_of!(Engine, engine);
calls_of!(Reference, reference);
calls_of!(InPlace, inplace);
