"""The programs that code_speed.py builds: ours in Rattle, and those of the peers in C."""

# How the messages of words are filled: by one pattern of places at one distance, or by none, as before there were patterns.
BY_NONE = ("", "rs_erase::solve(&mut work, erased)")
BY_SPACED = (
    """    let spacing = rs_erase::Spacing::prepare(5);
    let Some(pattern) = rs_erase::SpacedPattern::prepare(erased, &spacing) else {
        return COUNT as u64;
    };
""",
    "rs_erase::solve_spaced(&pattern, &spacing, &mut work)",
)

MAIN = r"""//! How fast the code's functions are: the best of many short trials.
#![tactic(auto)]

ghost use Rattle.std.specs.Prelude.{◌≤◌, length, ◌↔◌, IsTrue};
ghost use Rattle.rs_erase.specs.Code.{ArePlaces};

use std::io;
use std::rt::Clock;
use std::time::Instant;

/// How many words.
const COUNT: usize = 64;

/// Which function.
#[derive(Clone, Copy)]
enum Body {
    Encode,
    Syndromes,
    Solve,
    SolveSpaced,
    Check,
}

/// Fills the words with pseudo-random bytes.
fn fill(words: &mut [[u8; 255]; COUNT]) {
    let mut state = 88172645463325252u64;
    for word in words.iter_mut() {
        for byte in word.iter_mut() {
            state ^= state.wrapping_shl(13);
            state ^= state >> 7;
            state ^= state.wrapping_shl(17);
            *byte = ((state >> 24) % 256) as u8;
        }
    }
}

/// A sum that depends on all bytes and their order.
fn mixed(sum: u64, bytes: &[u8]) -> u64 {
    let mut mixed = sum;
    for byte in bytes {
        mixed = mixed.wrapping_mul(31).wrapping_add(u64::from(*byte));
    }
    mixed
}

/// Writes the parity of each word's first bytes behind zeros.
fn encode_all(words: &mut [[u8; 255]; COUNT], length: usize) -> u64
    requires { length ≤ 207 }
{
    let mut sum = 0u64;
    for word in words.iter_mut() {
        let mut parity = [0u8; 48];
        rs_erase::encode(&word[..length], &mut parity);
        word[207..].copy_from_slice(&parity);
        sum = sum.wrapping_mul(31).wrapping_add(u64::from(parity[0]));
    }
    sum
}

/// The last syndrome of each word.
fn roots_all(words: &[[u8; 255]; COUNT]) -> u64 {
    let mut sum = 0u64;
    for word in words.iter() {
        let values = rs_erase::syndromes(word);
        let value = values[47];
        sum = sum.wrapping_mul(31).wrapping_add(u64::from(value.0));
    }
    sum
}

/// Whether these are places of a word, each after the one before it.
fn are_places(places: &[u8]) -> bool
    ensures { IsTrue result ↔ ArePlaces places.now }
{
    for (i, place) in places.iter().enumerate() {
        if *place == 255 || (i > 0 && places[i - 1] >= *place) {
            return false;
        }
    }
    true
}

/// The word with zeros at these places.
fn without(word: &[u8; 255], erased: &[u8]) -> [u8; 255] {
    let mut work = *word;
    for place in erased {
        if *place < 255 {
            work[usize::from(*place)] = 0;
        }
    }
    work
}

/// How many of the words don't come back with these places erased.
fn solve_all(words: &[[u8; 255]; COUNT], erased: &[u8]) -> u64 {
    let mut wrong = 0u64;
    if !are_places(erased) {
        return COUNT as u64;
    }
    for word in words.iter() {
        let mut work = without(word, erased);
        if rs_erase::solve(&mut work, erased).is_err() || work != *word {
            wrong = wrong.wrapping_add(1);
        }
    }
    wrong
}

/// How many of the messages don't come back.
fn solve_spaced_all(words: &[[u8; 255]; COUNT], erased: &[u8]) -> u64 {
    let mut wrong = 0u64;
    if !are_places(erased) || erased.len() > 48 {
        return COUNT as u64;
    }
PREPARE_SPACED    for word in words.iter() {
        let mut work = without(word, erased);
        if SOLVE_SPACED.is_err() || !is_same_message(&work, word) {
            wrong = wrong.wrapping_add(1);
        }
    }
    wrong
}

/// Whether both words have the same message.
fn is_same_message(one: &[u8; 255], other: &[u8; 255]) -> bool {
    one[..207] == other[..207]
}

/// The check values of a packet, of which a byte is another each time.
fn check_all(first: u8) -> u64 {
    let mut packet = [0u8; 4090];
    packet[1] = first;
    let mut sum = 0u64;
    for number in 0..64u8 {
        packet[0] = number;
        sum = sum.wrapping_mul(31).wrapping_add(u64::from(drm_bits::crc16(&packet)));
    }
    sum
}

/// How many bytes of each of its words a function is given, or of each packet.
fn size_of(body: Body, length: usize) -> u64 {
    match body {
        Body::Encode => length as u64,
        Body::Check => 4090,
        _ => 255,
    }
}

/// One trial of some rounds.
fn rounds_of(words: &mut [[u8; 255]; COUNT], body: Body, length: usize, rounds: u32) -> u64
    requires { length ≤ 207 }
{
    let mut erased = [0u8; 48];
    for (i, place) in erased.iter_mut().enumerate() {
        *place = (i * 5 % 250) as u8;
    }
    let mut sum = 0u64;
    for i in 0..rounds {
        let one = match body {
            Body::Encode => encode_all(words, length),
            Body::Syndromes => roots_all(words),
            Body::Solve => {
                erased[47] = 240 + (i % 13) as u8;
                solve_all(words, &erased)
            }
            Body::SolveSpaced => {
                erased[47] = 240 + (i % 13) as u8;
                solve_spaced_all(words, &erased)
            }
            Body::Check => check_all((i % 256) as u8),
        };
        sum = sum.wrapping_mul(31).wrapping_add(one);
    }
    sum
}

/// Prints the megabytes (10^6) in a second of the best trial, and the sum of the last one.
fn time(
    rt: &(impl Print + Clock),
    words: &mut [[u8; 255]; COUNT],
    name: &str,
    body: Body,
    length: usize,
    rounds: u32,
) -> io::Result<()>
    requires { length ≤ 207 }
{
    let mut best = u64::MAX;
    let mut sum = 0;
    for _trial in 0..200u32 {
        let start = Instant::now(rt)?;
        sum = rounds_of(words, body, length, rounds);
        let nanos = (start.elapsed(rt)?.as_nanos() % (1 << 63)) as u64;
        best = best.min(nanos);
    }
    let bytes = u64::from(rounds).wrapping_mul(64).wrapping_mul(size_of(body, length));
    if best > 0 {
        let rate = bytes.wrapping_mul(10_000) / best;
        println!(rt; "{name},{}.{},{sum}", rate / 10, rate % 10)?;
    }
    Ok(())
}

fn main(rt: HostRuntime) -> io::Result<()> {
    let mut words = [[0u8; 255]; COUNT];
    fill(&mut words);
    time(&rt, &mut words, "syndromes", Body::Syndromes, 207, 20)?;
    time(&rt, &mut words, "encode 190", Body::Encode, 190, 20)?;
    time(&rt, &mut words, "encode 207", Body::Encode, 207, 20)?;
    let mut sum = 0u64;
    for word in words.iter() {
        sum = mixed(sum, &word[207..]);
    }
    println!(rt; "words,0.0,{sum}")?;
    time(&rt, &mut words, "solve 48", Body::Solve, 207, 10)?;
    time(&rt, &mut words, "solve spaced 48", Body::SolveSpaced, 207, 10)?;
    time(&rt, &mut words, "check", Body::Check, 207, 2)
}
"""


def main(spaced):
    """The program that fills messages so."""
    return MAIN.replace("PREPARE_SPACED", spaced[0]).replace("SOLVE_SPACED", spaced[1])


INVARIANT = """use Rattle.std.proofs.Common.{ℕ, ◌+◌, ◌<◌, get_or}
use Rattle.code_speed.proofs.are_places.Given as goal

abbrev pub invariant-loop-i : goal.invariant-loop-i
invariant-loop-i l = record {
  below : (k : ℕ) → k < l.i → get_or l.places k 0 < 255;
  rising : (k : ℕ) → k + 1 < l.i → get_or l.places k 0 < get_or l.places (k + 1) 0;
}
"""

# What both peers share: the same words, the same sum and the same way to time.
COMMON = r"""
#include <stdint.h>
#include <stdio.h>
#include <stdlib.h>
#include <string.h>
#include <time.h>

enum { COUNT = 64, CHUNK = 207, PARITY = 48, WORD = 255 };
static unsigned char words[COUNT][WORD];

static void fill(void) {
    uint64_t state = 88172645463325252u;
    for (int w = 0; w < COUNT; w++)
        for (int i = 0; i < WORD; i++) {
            state ^= state << 13, state ^= state >> 7, state ^= state << 17;
            words[w][i] = (unsigned char)(state >> 24);
        }
}
static void print_words(void) {
    uint64_t sum = 0;
    for (int w = 0; w < COUNT; w++)
        for (int i = CHUNK; i < WORD; i++) sum = sum * 31 + words[w][i];
    printf("words,0.0,%llu\n", (unsigned long long)sum);
}
static double now(void) {
    struct timespec t;
    clock_gettime(CLOCK_MONOTONIC, &t);
    return t.tv_sec + t.tv_nsec / 1e9;
}
static void time_body(const char *name, int (*body)(void), double bytes, int trials) {
    double best = 1e9;
    int wrong = 0;
    for (int i = 0; i < trials; i++) {
        double start = now();
        wrong = body();
        double took = now() - start;
        if (took < best) best = took;
    }
    printf("%s,%.2f,%d\n", name, bytes / best / 1e6, wrong);
}
"""

LIBFEC = COMMON + r"""
#include <fec.h>

/* Few words a trial, so that no trial is long enough to be interrupted each time. */
enum { FEW = 8, TRIALS = 400 };
static void *rs;
static int encode(void) {
    for (int w = 0; w < FEW; w++) encode_rs_char(rs, words[w], words[w] + CHUNK);
    return 0;
}
static int without_errors(void) {
    int wrong = 0;
    for (int w = 0; w < FEW; w++) wrong += decode_rs_char(rs, words[w], NULL, 0) != 0;
    return wrong;
}
static int erased(void) {
    int wrong = 0;
    for (int w = 0; w < FEW; w++) {
        unsigned char work[WORD];
        int at[PARITY];
        memcpy(work, words[w], WORD);
        for (int i = 0; i < PARITY; i++) at[i] = i * 5 % 250, work[at[i]] = 0;
        decode_rs_char(rs, work, at, PARITY);
        wrong += memcmp(work, words[w], WORD) != 0;
    }
    return wrong;
}
int main(void) {
    rs = init_rs_char(8, 0x11d, 1, 1, PARITY, 0);
    fill();
    for (int w = 0; w < COUNT; w++) encode_rs_char(rs, words[w], words[w] + CHUNK);
    print_words();
    time_body("encode 207", encode, FEW * CHUNK, TRIALS);
    time_body("syndromes", without_errors, FEW * WORD, TRIALS);
    time_body("solve 48", erased, FEW * WORD, TRIALS);
    return 0;
}
"""

# ISA-L codes many words at once: place i of all words is one of its buffers. Its matrix is the parity of each single symbol.
ISAL = COMMON + r"""
#include <isa-l.h>

enum { MANY = 4096 };
static unsigned char matrix[PARITY * CHUNK], tables[32 * PARITY * CHUNK];
static unsigned char *chunks[CHUNK], *parities[PARITY];

static void parity_of(const unsigned char *chunk, unsigned char *parity) {
    static unsigned char generator[PARITY + 1];
    if (!generator[0]) {
        unsigned char root = 1;
        generator[0] = 1;
        for (int j = 1; j <= PARITY; j++) {
            root = gf_mul(root, 2);
            for (int i = j; i > 0; i--) generator[i] ^= gf_mul(generator[i - 1], root);
        }
    }
    memset(parity, 0, PARITY);
    for (int i = 0; i < CHUNK; i++) {
        unsigned char leading = parity[0] ^ chunk[i];
        memmove(parity, parity + 1, PARITY - 1);
        parity[PARITY - 1] = 0;
        for (int j = 0; j < PARITY; j++) parity[j] ^= gf_mul(leading, generator[j + 1]);
    }
}
static int encode(void) {
    ec_encode_data(MANY, CHUNK, PARITY, tables, chunks, parities);
    return 0;
}
int main(void) {
    for (int i = 0; i < CHUNK; i++) {
        unsigned char one[CHUNK] = {0}, parity[PARITY];
        one[i] = 1;
        parity_of(one, parity);
        for (int j = 0; j < PARITY; j++) matrix[j * CHUNK + i] = parity[j];
        chunks[i] = calloc(MANY, 1);
    }
    for (int j = 0; j < PARITY; j++) parities[j] = calloc(MANY, 1);
    ec_init_tables(CHUNK, PARITY, matrix, tables);
    fill();
    for (int w = 0; w < MANY; w++)
        for (int i = 0; i < CHUNK; i++) chunks[i][w] = words[w % COUNT][i];
    time_body("encode 207", encode, (double)MANY * CHUNK, 60);
    for (int w = 0; w < COUNT; w++)
        for (int j = 0; j < PARITY; j++) words[w][CHUNK + j] = parities[j][w];
    print_words();
    return 0;
}
"""
