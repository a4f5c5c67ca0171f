//! Images past 2^31 and 2^32 bytes, to the top of the range: "block 524287 starts at byte
//! 2147479552, block 524288 at 2147483648".

use std::io;

use super::mapped::Mapped;
use super::sweep::{sweep, Expected};
use crate::build::page::PagePlan;
use crate::build::plan::{write, PageRef, Plan};
use crate::build::tree::{Entries, MapPlan, Placed};
use crate::family::questions::*;
use crate::family::standard::{chunk_entry, numbered, METADATA_PLAN};
use crate::model::ask::View;
use crate::model::fletcher::Edition;
use crate::model::image::BLOCK;
use crate::subject::Judge;

/// "It has 3 to 268,435,456 blocks."
const MOST_BLOCKS: u64 = 268_435_456;
/// Where the chunks stand: around 2^31 and 2^32 bytes, half way, and in the last block.
const BLOCKS: [u64; 6] = [2, 524_287, 524_288, 1_048_575, 1 << 27, MOST_BLOCKS - 1];
const FORCES_PLAN: MapPlan = MapPlan { id: 1, kind: 0 };
/// A chunk that holds every offset of a position.
const LONG_CHUNK: u64 = (1 << 20) + 8;

pub fn check(judge: &mut Judge) -> io::Result<()> {
    for edition in [Edition::First, Edition::Second] {
        far_chunks(judge, edition, true)?;
        far_chunks(judge, edition, false)?;
    }
    too_many_blocks(judge)?;
    long_chunk(judge)
}

fn mapped(plan: &Plan) -> io::Result<Mapped> {
    let mut image = Mapped::new(plan.blocks * BLOCK)?;
    for (at, bytes) in plan.parts() {
        write(&mut image, at, &bytes);
    }
    Ok(image)
}

/// A leaf in each chunk, the roots in the last one. The newest is found by its footer and header,
/// or along the chain from the first chunk.
fn far_chunks(judge: &mut Judge, edition: Edition, named: bool) -> io::Result<()> {
    let view = View::of(edition);
    let mut plan = Plan::new();
    for (i, &block) in BLOCKS.iter().enumerate() {
        plan.blocks = block;
        plan.add_chunk(i as u64 + 1, 1, i as u64 + 1);
    }
    let newest = BLOCKS.len() - 1;
    for i in 0..newest {
        plan.chunks[i].header.set("next", BLOCKS[i + 1]);
    }
    plan.name_chunk(if named { newest } else { 0 });
    let keys: Vec<Vec<i64>> =
        (0..BLOCKS.len() as i64).map(|i| vec![10 * i - 25, 10 * i - 20]).collect();
    let leaves: Vec<Placed> =
        (0..BLOCKS.len()).map(|i| FORCES_PLAN.leaf(&mut plan, i, &numbered(&keys[i]))).collect();
    let root = FORCES_PLAN.inner(&mut plan, newest, &leaves).page;
    add_metadata(&mut plan, newest, root);
    plan.set_edition(edition);
    let image = mapped(&plan)?;
    let opened = judge.image("far chunks", &image, view).to_string();
    let due = format!("chunk 6 block {} blocks 1 version 6", MOST_BLOCKS - 1);
    judge.claim(opened == due, || format!("far chunks: {opened}"));
    let entries = numbered(&keys.concat());
    sweep(judge, &image, &Expected { view, map: FORCES, entries: &entries }, "far chunks");
    every_call().into_iter().for_each(|question| {
        judge.ask(&image, &question.under(view));
    });
    Ok(())
}

/// One metadata leaf in the newest chunk.
fn add_metadata(plan: &mut Plan, newest: usize, root: PageRef) {
    let mut entries: Entries = (0..newest).map(|chunk| chunk_entry(plan, chunk)).collect();
    entries.push((b"name.forces".to_vec(), b"1".to_vec()));
    entries.push((b"root.1".to_vec(), format!("{:x}", plan.position(root)).into_bytes()));
    let leaf = METADATA_PLAN.leaf(plan, newest, &entries).page;
    let position = plan.position(leaf);
    plan.chunks[newest].header.set("root", position);
}

/// One block too many is refused with 2; a part block more is not.
fn too_many_blocks(judge: &mut Judge) -> io::Result<()> {
    let image = Mapped::new((MOST_BLOCKS + 1) * BLOCK)?;
    judge.image("too many blocks", &image, View::FIRST);
    for (length, number) in [(image.len(), 2), (image.len() - 1, 3)] {
        for question in every_call().into_iter().chain([open()]) {
            let reply = judge.ask(&image[..length], &question);
            judge.claim(reply.refusal() == Some(number), || format!("{length} bytes: {reply}"));
        }
    }
    Ok(())
}

/// A chunk of more than 2^32 bytes: pages at offsets past 2^31, lengths past 2^31, and a page that
/// begins among the spaces of the header line.
fn long_chunk(judge: &mut Judge) -> io::Result<()> {
    let far = (1 << 32) - 100;
    long_chunk_case(judge, "offset near 2^32", far, |_| {}, "report 2 1 1")?;
    long_chunk_case(judge, "offset past 2^31", 1 << 31, |_| {}, "report 2 1 1")?;
    // A length is no signed number: what is wrong with this page is its map id.
    let long = |page: &mut PagePlan| {
        page.length = Some((1 << 31) + 7);
        page.code = 31;
        page.map = vec![2];
    };
    long_chunk_case(judge, "length past 2^31", 1 << 31, long, "refused 9")?;
    // Four spaces are a length that ends before this footer; their check value is not right.
    let spaces = |page: &mut PagePlan| {
        *page = PagePlan { offset: 120, code: 31, ..PagePlan::default() };
        page.length = Some(0x2020_2020);
    };
    long_chunk_case(judge, "page among the header's spaces", 120, spaces, "refused 7")
}

fn long_chunk_case(
    judge: &mut Judge,
    what: &str,
    offset: u64,
    edit: impl FnOnce(&mut PagePlan),
    due: &str,
) -> io::Result<()> {
    let mut plan = Plan::new();
    plan.add_chunk(1, LONG_CHUNK, 1);
    plan.name_chunk(0);
    let root = FORCES_PLAN.leaf(&mut plan, 0, &numbered(&[3, 4])).page;
    plan.page(root).offset = offset;
    edit(plan.page(root));
    add_metadata(&mut plan, 0, root);
    if offset < plan.newline {
        // Only the position is there: the spaces stay.
        plan.chunks[0].pages.remove(0);
    }
    let image = mapped(&plan)?;
    judge.image(what, &image, View::FIRST);
    for question in [count(), lookup(4), index(1), walk(&[]), copy(3, 30)] {
        judge.ask(&image, &question);
    }
    let examined = judge.ask(&image, &examine()).to_string();
    judge.claim(examined == due, || format!("{what}: {examined}, due {due}"));
    Ok(())
}
