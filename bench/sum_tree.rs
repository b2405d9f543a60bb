//! The program of the bench on workers, in Rust: reads a packed tree behind a number of passes, sums it so often with as many threads as
//! the second word says, and prints the sum of all passes.

use std::hint::black_box;
use std::{env, fs, thread};

enum Tree {
    Leaf(i64),
    Node(Box<Tree>, Box<Tree>),
}

/// Where the number of passes stands: behind a header of 16 bytes and a tag. The tree stands behind it.
const PASSES: usize = 17;
const TREE: usize = 25;

fn number(bytes: &[u8]) -> i64 {
    i64::from_le_bytes(bytes[..8].try_into().unwrap())
}

/// The tree at the begin of the bytes, and what stands behind it.
fn read(bytes: &[u8]) -> (Tree, &[u8]) {
    if bytes[0] == 0 {
        return (Tree::Leaf(number(&bytes[1..])), &bytes[9..]);
    }
    let (left, rest) = read(&bytes[1..]);
    let (right, rest) = read(rest);
    (Tree::Node(Box::new(left), Box::new(right)), rest)
}

/// The sum of a tree's leaves, by so many threads.
fn sum(tree: &Tree, threads: usize) -> i64 {
    match tree {
        Tree::Leaf(n) => *n,
        Tree::Node(left, right) if threads > 1 => thread::scope(|scope| {
            let right = scope.spawn(|| sum(right, threads / 2));
            sum(left, threads - threads / 2).wrapping_add(right.join().unwrap())
        }),
        Tree::Node(left, right) => sum(left, 1).wrapping_add(sum(right, 1)),
    }
}

fn main() {
    let words: Vec<String> = env::args().collect();
    let file = fs::read(&words[1]).unwrap();
    let threads = words[2].parse().unwrap();
    let (tree, _) = read(&file[TREE..]);
    let mut total = 0i64;
    for _ in 0..number(&file[PASSES..]) {
        total = total.wrapping_add(sum(black_box(&tree), threads));
    }
    println!("{total}");
}
