//! The shortest way through the pool: join, put, get, tick. After the tick the object is gone, and a get is refused.
use ramsummer::{Kind, Pool, Refusal, Share};

fn main() -> Result<(), Refusal> {
    let mut pool = Pool::new();
    pool.join(0, Share::OPEN)?;
    let handle = pool.put(0, Kind::Local, 0, b"12.50 m")?; // 7 bytes, until the next tick of task 0
    let found: [u8; 7] = pool.get(0, handle)?;
    println!("{}", String::from_utf8_lossy(&found));
    pool.tick(0)?; // the block comes back by itself
    match pool.get::<7>(0, handle) {
        Ok(_) => unreachable!("its last expiration has ended"),
        Err(refusal) => println!("refused with {}: {refusal}", refusal.number()),
    }
    Ok(())
}
