//! One block of FIPS 197's example, encrypted.

fn main() -> Result<(), dock::Refusal> {
    let key = 0x0001_0203_0405_0607_0809_0a0b_0c0d_0e0fu128.to_be_bytes();
    let block = 0x0011_2233_4455_6677_8899_aabb_ccdd_eeffu128.to_be_bytes();
    let answer = dock::encrypt(&key, block)?;
    println!("{:032x}", u128::from_be_bytes(answer));
    Ok(())
}
