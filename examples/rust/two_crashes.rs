//! A world of 64 pages in four frames loses two of its eight nodes. Run: `cargo run --example two_crashes`, behind `tools/lib`.
use carbink::world::{Config, Event, Refused, Verb, World, BYTES};

const PAGES: u32 = 64;

fn page(number: u32) -> Vec<u8> {
    (0..1000).map(|i| (number * 7 + i) as u8).collect()
}

fn whole_pages(world: &mut World) -> Result<usize, Refused> {
    let mut whole = 0;
    for handle in 0..PAGES {
        let reply = world.on(Verb::Read, handle)?;
        whole += usize::from(reply.kind == BYTES && reply.bytes == page(handle));
    }
    Ok(whole)
}

fn main() -> Result<(), Refused> {
    let mut world = World::new(Config { k: 4, r: 2, nodes: 8, frames: 4, room: 64, handles: PAGES })?;
    for number in 0..PAGES {
        world.make(&page(number))?;
    }
    println!("{PAGES} pages in 4 frames: {} are whole", whole_pages(&mut world)?);
    for node in [1, 3] {
        world.at_node(Verb::Crash, node)?;
        println!("node {node} crashed: {} are whole", whole_pages(&mut world)?);
    }
    println!("a seat that there is none of: {:?}", world.step(Event { seat: 64, ..Event::of(Verb::Evict) }).map(|reply| reply.kind));
    Ok(())
}
