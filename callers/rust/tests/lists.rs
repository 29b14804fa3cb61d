//! Each call beside the same on a `Vec<bool>`.

use bits::{Bits, BitsMut, Lsb0, Msb0, Storage, WidthError};

/// Words whose bits are seen one by one.
trait Plain<O>: Storage<O> {
    const WIDTH: usize;
    const HEADS: &'static [usize];
    fn bit(self, index: usize) -> bool;
    fn word(digits: u64) -> Self;
}

macro_rules! plain {
    ($word:ident, $order:ident, $heads:expr, $digit:expr) => {
        impl Plain<$order> for $word {
            const WIDTH: usize = $word::BITS as usize;
            const HEADS: &'static [usize] = &$heads;
            fn bit(self, index: usize) -> bool {
                let digit: fn(usize) -> usize = $digit;
                self >> digit(index) & 1 == 1
            }
            fn word(digits: u64) -> $word {
                digits as $word
            }
        }
    };
}

plain!(u64, Lsb0, [0, 1, 13, 31, 63], |index| index);
plain!(u64, Msb0, [0, 1, 13, 31, 63], |index| 63 - index);
plain!(u8, Lsb0, [0, 1, 2, 3, 4, 5, 6, 7], |index| index);
plain!(u8, Msb0, [0, 1, 2, 3, 4, 5, 6, 7], |index| 7 - index);

/// Numbers by chance, the same ones in each run.
struct Chance(u64);

impl Chance {
    fn next(&mut self) -> u64 {
        self.0 ^= self.0 << 13;
        self.0 ^= self.0 >> 7;
        self.0 ^= self.0 << 17;
        self.0
    }

    fn below(&mut self, limit: usize) -> usize {
        (self.next() % limit as u64) as usize
    }

    /// Words that hold so many bits and a few more: by chance, mostly zeros or mostly ones.
    fn words<W: Plain<O>, O>(&mut self, bits: usize) -> Vec<W> {
        let way = self.next() % 3;
        let word = |chance: &mut Chance| match way {
            0 => chance.next(),
            1 => chance.next() & chance.next() & chance.next() & chance.next() & chance.next(),
            _ => chance.next() | chance.next() | chance.next() | chance.next() | chance.next(),
        };
        (0..bits / W::WIDTH + 2)
            .map(|_| W::word(word(self)))
            .collect()
    }
}

fn list_of<W: Plain<O>, O>(words: &[W]) -> Vec<bool> {
    words
        .iter()
        .flat_map(|word| (0..W::WIDTH).map(|index| word.bit(index)))
        .collect()
}

/// The digits of a list, the lowest first.
fn digits<O: 'static>(list: &[bool]) -> Vec<bool> {
    let is_low_first = std::any::TypeId::of::<O>() == std::any::TypeId::of::<Lsb0>();
    let mut digits = list.to_vec();
    if !is_low_first {
        digits.reverse();
    }
    digits
}

fn number_of(digits: &[bool]) -> u64 {
    digits
        .iter()
        .rev()
        .fold(0, |number, &digit| number << 1 | u64::from(digit))
}

fn signed_of(digits: &[bool]) -> i64 {
    let sign = i64::from(digits[digits.len() - 1]);
    digits
        .iter()
        .rev()
        .fold(-sign, |number, &digit| number << 1 | i64::from(digit))
}

fn reads<W: Plain<O>, O: 'static>(window: Bits<'_, W, O>, list: &[bool]) {
    assert_eq!(window.len(), list.len());
    assert_eq!(window.is_empty(), list.is_empty());
    for index in 0..list.len() + 2 {
        assert_eq!(window.get(index), list.get(index).copied());
    }
    assert_eq!(window.count_ones(), list.iter().filter(|&&bit| bit).count());
    assert_eq!(window.first_one(), list.iter().position(|&bit| bit));
    assert_eq!(window.last_one(), list.iter().rposition(|&bit| bit));
    assert_eq!(window.first_zero(), list.iter().position(|&bit| !bit));
    assert_eq!(window.last_zero(), list.iter().rposition(|&bit| !bit));
    assert_eq!(window.any(), list.iter().any(|&bit| bit));
    assert_eq!(window.all(), list.iter().all(|&bit| bit));
    let shown: Vec<u8> = list.iter().copied().map(u8::from).collect();
    assert_eq!(format!("{window:?}"), format!("{shown:?}"));
    let len = list.len();
    if (1..=64).contains(&len) {
        assert_eq!(window.load(), Ok(number_of(&digits::<O>(list))));
        assert_eq!(window.load_signed(), Ok(signed_of(&digits::<O>(list))));
    } else {
        assert_eq!(window.load(), Err(WidthError { len }));
        assert_eq!(window.load_signed(), Err(WidthError { len }));
    }
}

fn comparisons<W: Plain<O>, O>(
    one: Bits<'_, W, O>,
    list: &[bool],
    other: Bits<'_, W, O>,
    with: &[bool],
) {
    assert_eq!(one == other, list == with);
    assert_eq!(one.cmp(&other), list.cmp(with));
    assert_eq!(one.partial_cmp(&other), list.partial_cmp(with));
}

/// What a call does to a window and to a list.
type Change<W, O> = (
    Box<dyn Fn(&mut BitsMut<'_, W, O>)>,
    Box<dyn Fn(&mut [bool])>,
);

fn numbers<W: Plain<O> + 'static, O: 'static>(value: u64) -> Vec<Change<W, O>> {
    let put = move |list: &mut [bool]| {
        let len = list.len();
        if (1..=64).contains(&len) {
            let lowest: Vec<bool> = (0..len).map(|digit| value >> digit & 1 == 1).collect();
            list.copy_from_slice(&digits::<O>(&lowest));
        }
    };
    let fits = |len: usize| (1..=64).contains(&len);
    vec![
        (
            Box::new(move |window| assert_eq!(window.store(value).is_ok(), fits(window.len()))),
            Box::new(put),
        ),
        (
            Box::new(move |window| {
                assert_eq!(
                    window.store_signed(value as i64).is_ok(),
                    fits(window.len())
                )
            }),
            Box::new(put),
        ),
    ]
}

fn changes<W: Plain<O> + 'static, O: 'static>(
    len: usize,
    chance: &mut Chance,
) -> Vec<Change<W, O>> {
    let mut all = numbers::<W, O>(chance.next());
    for bit in [false, true] {
        all.push((
            Box::new(move |window| window.fill(bit)),
            Box::new(move |list| list.fill(bit)),
        ));
        if len > 0 {
            let index = chance.below(len);
            all.push((
                Box::new(move |window| window.set(index, bit)),
                Box::new(move |list| list[index] = bit),
            ));
        }
    }
    let by = chance.below(len + 1);
    let (from, to, some) = (
        chance.below(len + 1),
        chance.below(len + 1),
        chance.below(len + 1),
    );
    let some = some.min(len - from).min(len - to);
    all.push((
        Box::new(|window| window.invert()),
        Box::new(|list| list.iter_mut().for_each(|bit| *bit = !*bit)),
    ));
    all.push((
        Box::new(|window| window.reverse()),
        Box::new(|list| list.reverse()),
    ));
    all.push((
        Box::new(move |window| window.rotate_left(by)),
        Box::new(move |list| list.rotate_left(by)),
    ));
    all.push((
        Box::new(move |window| window.rotate_right(by)),
        Box::new(move |list| list.rotate_right(by)),
    ));
    all.push((
        Box::new(move |window| window.copy_within(from..from + some, to)),
        Box::new(move |list| list.copy_within(from..from + some, to)),
    ));
    all
}

fn combinations<W: Plain<O>, O>(words: &[W], head: usize, other: Bits<'_, W, O>, with: &[bool]) {
    let range = head..head + with.len();
    for way in 0..4 {
        let (mut changed, mut list) = (words.to_vec(), list_of(words));
        let mut bits = BitsMut::new(&mut changed);
        let mut window = bits.window(range.clone()).unwrap();
        match way {
            0 => window.copy_from(other),
            1 => window &= other,
            2 => window |= other,
            _ => window ^= other,
        }
        for (bit, &with) in list[range.clone()].iter_mut().zip(with) {
            *bit = [with, *bit & with, *bit | with, *bit ^ with][way];
        }
        assert_eq!(list_of(&changed), list, "way {way} at {range:?}");
    }
}

fn each_call<W: Plain<O> + 'static, O: 'static>() {
    let mut chance = Chance(88_172_645_463_325_252);
    for (&head, &other_head) in W::HEADS
        .iter()
        .flat_map(|head| W::HEADS.iter().map(move |other| (head, other)))
    {
        for len in (0..20).chain([31, 32, 33, 63, 64, 65, 66, 127, 128, 130]) {
            let words: Vec<W> = chance.words(head + len);
            let other: Vec<W> = chance.words(other_head + len);
            let (list, with) = (list_of(&words), list_of(&other));
            let window = Bits::new(&words).window(head..head + len).unwrap();
            let second = Bits::new(&other)
                .window(other_head..other_head + len)
                .unwrap();
            let (range, part) = (head..head + len, &with[other_head..other_head + len]);
            reads(window, &list[range.clone()]);
            comparisons(window, &list[range.clone()], second, part);
            comparisons(
                window,
                &list[range.clone()],
                window.window(..len / 2).unwrap(),
                &list[head..head + len / 2],
            );
            combinations(&words, head, second, part);
            for (number, (change, wanted)) in
                changes::<W, O>(len, &mut chance).into_iter().enumerate()
            {
                let (mut changed, mut list) = (words.clone(), list.clone());
                change(&mut BitsMut::new(&mut changed).window(range.clone()).unwrap());
                wanted(&mut list[range.clone()]);
                assert_eq!(list_of(&changed), list, "change {number} at {range:?}");
            }
        }
    }
}

#[test]
fn words_of_64_bits_from_the_lowest_digit() {
    each_call::<u64, Lsb0>();
}

#[test]
fn words_of_64_bits_from_the_highest_digit() {
    each_call::<u64, Msb0>();
}

#[test]
fn bytes_from_the_lowest_digit() {
    each_call::<u8, Lsb0>();
}

#[test]
fn bytes_from_the_highest_digit() {
    each_call::<u8, Msb0>();
}

#[test]
fn ranges_are_taken_where_they_lie_in_the_window() {
    let bytes = [0u8; 2];
    let bits = Bits::<u8, Lsb0>::new(&bytes).window(2..12).unwrap();
    for start in 0..12 {
        for end in 0..12 {
            let len = bits.window(start..end).map(|window| window.len());
            assert_eq!(len, (start <= end && end <= 10).then(|| end - start));
        }
    }
    assert_eq!(bits.window(..).unwrap().len(), 10);
    assert_eq!(bits.window(..=9).unwrap().len(), 10);
    assert!(bits.window(..=10).is_none());
    assert!(bits.window(..=usize::MAX).is_none());
    assert!(bits.window(usize::MAX..).is_none());
    assert!(Bits::<u64, Msb0>::new(&[]).is_empty());
    assert!(Bits::<u64, Msb0>::new(&[]).all());
}

/// Whether a call on ten bits panics; they must not be changed then.
fn panics(call: impl FnOnce(&mut BitsMut<'_, u8, Lsb0>) + std::panic::UnwindSafe) {
    let result = std::panic::catch_unwind(|| {
        let mut bytes = [0x5a; 2];
        call(&mut BitsMut::new(&mut bytes).window(2..12).unwrap());
    });
    assert!(result.is_err());
}

#[test]
fn what_lies_outside_panics() {
    panics(|window| window.set(10, true));
    panics(|window| window.rotate_left(11));
    panics(|window| window.rotate_right(11));
    panics(|window| window.copy_within(4..11, 0));
    panics(|window| window.copy_within(4..10, 5));
    panics(|window| window.copy_from(Bits::new(&[0; 2])));
    panics(|window| *window &= Bits::new(&[0]));
    panics(|window| *window |= Bits::new(&[0]));
    panics(|window| *window ^= Bits::new(&[0]));
}
