use bits::{BitsMut, Lsb0};

fn main() {
    let mut words = [0u64; 2];
    let mut bits = BitsMut::<u64, Lsb0>::new(&mut words);
    bits.window(60..71).unwrap().store(1234).unwrap();
    let bits = bits.as_bits();
    let number = bits.window(60..71).unwrap().load().unwrap();
    println!("{number} has {} ones", bits.count_ones());
    if bits.get(128).is_none() {
        println!("there is no bit 128");
    }
}
