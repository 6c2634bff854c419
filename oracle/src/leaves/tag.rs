//! `tag.rs`: making tags, and their fields.
//!
//! Assumes nothing: every function is total.

use super::{hex, one_word, sign, yes_or_no};
use crate::tally::{Check, Subject};
use crate::{inputs, port, random::Random, rust::tag as rust};

pub fn compare() -> Subject {
    let mut random = Random::new(1);
    let mut subject = Subject::new("tag");
    let tags = inputs::words(&mut random);
    types_and_id(&mut subject, &tags);
    fields(&mut subject, &tags);
    lengths(&mut subject, &tags);
    making(&mut subject, &triples(&mut random, &tags));
    subject
}

/// The fields of 16 bits in the Rust: the type, whole and in parts, and the id.
fn types_and_id(subject: &mut Subject, tags: &[u32]) {
    let mut field = |name, rust: fn(u32) -> u16, port: fn(u32) -> u32| {
        subject.add(one_word(name, tags, None, |tag| rust(tag).into(), port));
    };
    field("lfs_tag_type1", rust::lfs_tag_type1, port::tag_type1);
    field("lfs_tag_type2", rust::lfs_tag_type2, port::tag_type2);
    field("lfs_tag_type3", rust::lfs_tag_type3, port::tag_type3);
    field("lfs_tag_id", rust::lfs_tag_id, port::tag_id);
}

/// The other fields.
fn fields(subject: &mut Subject, tags: &[u32]) {
    subject.add(one_word(
        "lfs_tag_isvalid",
        tags,
        Some(yes_or_no),
        |tag| rust::lfs_tag_isvalid(tag).into(),
        port::tag_isvalid,
    ));
    subject.add(one_word(
        "lfs_tag_chunk",
        tags,
        None,
        |tag| rust::lfs_tag_chunk(tag).into(),
        port::tag_chunk,
    ));
    subject.add(one_word(
        "lfs_tag_splice",
        tags,
        Some(sign),
        |tag| rust::lfs_tag_splice(tag).into(),
        port::tag_splice,
    ));
}

/// The size, and what a removal makes of it.
fn lengths(subject: &mut Subject, tags: &[u32]) {
    subject.add(one_word(
        "lfs_tag_isdelete",
        tags,
        Some(yes_or_no),
        |tag| rust::lfs_tag_isdelete(tag).into(),
        port::tag_isdelete,
    ));
    subject.add(one_word(
        "lfs_tag_size",
        tags,
        None,
        rust::lfs_tag_size,
        port::tag_size,
    ));
    subject.add(one_word(
        "lfs_tag_dsize",
        tags,
        Some(|length| match length {
            4 => "the tag alone",
            _ => "with data",
        }),
        rust::lfs_tag_dsize,
        port::tag_dsize,
    ));
}

/// Type, id and size: fields of tags, corners, and any words, since nothing is
/// masked and a word that is too wide runs into its neighbours.
fn triples(random: &mut Random, tags: &[u32]) -> Vec<[u32; 3]> {
    let mut triples = Vec::new();
    for tag in tags {
        triples.push([tag >> 20, tag >> 10 & 0x3ff, tag & 0x3ff]);
    }
    let corners = inputs::corners();
    for &type_ in &corners {
        for &id in &corners {
            triples.extend(corners.iter().map(|&size| [type_, id, size]));
        }
    }
    for _ in 0..inputs::MANY {
        triples.push([random.word(), random.word(), random.word()]);
    }
    triples
}

fn making(subject: &mut Subject, triples: &[[u32; 3]]) {
    let mut make = Check::rust("lfs_mktag");
    let mut make_if = Check::rust("lfs_mktag_if");
    for &[t, id, size] in triples {
        let inputs = || hex(&[t, id, size]);
        make.same(
            rust::lfs_mktag(t, id, size),
            port::mktag(t, id, size),
            inputs,
        );
        for condition in [true, false] {
            make_if.outcome(if condition { "made" } else { "no-op" });
            make_if.same(
                rust::lfs_mktag_if(condition, t, id, size),
                port::mktag_if(condition, t, id, size),
                || format!("{condition}, {}", inputs()),
            );
        }
    }
    subject.add(make);
    subject.add(make_if);
}
