//! Shares and charges, worked out by hand from the rule (docs/RULES.md, "The charge and the shares"), apart from the library and
//! from tariff.rs.

/// A rate with a list of steps, and what is claimed, in the notation of docs/DIFFERENCES.md; `shares` are those of the last
/// steps.
pub const TARIFFS: &[(&str, &str)] = &[
    // a million cycles cost the rate; a cycle more begins a cent, a cycle less doesn't save one
    ("rate 307, IDLE 1,000,000", "shares 307, charge 307, total 1,000,000"),
    ("rate 307, IDLE 1,000,001", "shares 308, charge 308, total 1,000,001"),
    ("rate 307, IDLE 999,999", "shares 307, charge 307, total 999,999"),
    ("rate 1, IDLE 999,999", "shares 1, charge 1"),
    ("rate 1, IDLE 1,000,000", "shares 1, charge 1"),
    ("rate 1, IDLE 1,000,001", "shares 2, charge 2"),
    ("rate 2, IDLE 499,999", "shares 1, charge 1"),
    ("rate 2, IDLE 500,000", "shares 1, charge 1"),
    ("rate 2, IDLE 500,001", "shares 2, charge 2"),
    // 64 · 15,625 is a million
    ("rate 64, IDLE 15,624", "shares 1, charge 1"),
    ("rate 64, IDLE 15,625", "shares 1, charge 1"),
    ("rate 64, IDLE 15,626", "shares 2, charge 2"),
    // 3 doesn't divide a million: 999,999 and 1,000,002; 1,999,998 and 2,000,001
    ("rate 3, IDLE 333,333", "charge 1"),
    ("rate 3, IDLE 333,334", "charge 2"),
    ("rate 3, IDLE 666,666", "charge 2"),
    ("rate 3, IDLE 666,667", "charge 3"),
    // the highest rate is a cent a cycle; the next lower one is a cent less in a million
    ("rate 1,000,000, IDLE 1", "shares 1, charge 1"),
    ("rate 1,000,000, IDLE 12,345", "shares 12,345, charge 12,345"),
    ("rate 999,999, IDLE 1", "charge 1"),
    ("rate 999,999, IDLE 999,999", "charge 999,999"),
    ("rate 999,999, IDLE 1,000,000", "charge 999,999"),
    ("rate 999,999, IDLE 1,000,001", "charge 1,000,000"),
    // a single cycle begins a cent, no cycle doesn't; an empty sheet is free
    ("rate 1, IDLE 1", "shares 1, charge 1"),
    ("rate 1, IDLE 0", "shares 0, charge 0, total 0"),
    ("rate 1,000,000, IDLE 0", "shares 0, charge 0, total 0"),
    ("rate 307", "charge 0, total 0"),
    // rounded each by itself, the steps would pay 3; rounded down, nothing
    ("rate 1, 3 × IDLE 1", "shares 1, 0, 0, charge 1"),
    // sums of 0.307, 0.614, 0.921, 1.228, 1.535: each by itself gives 5 up and nothing down
    ("rate 307, 5 × IDLE 1,000", "shares 1, 0, 0, 1, 0, charge 2"),
    // 0.5, 1, 1.5, 2; and 1.5, 3, 4.5, 6, where each by itself gives 8 up and 4 down
    ("rate 500,000, 4 × IDLE 1", "shares 1, 0, 1, 0, charge 2"),
    ("rate 500,000, 4 × IDLE 3", "shares 2, 1, 2, 1, charge 6"),
    // three thirds, a little less and a little more
    ("rate 333,333, 3 × IDLE 1", "shares 1, 0, 0, charge 1"),
    ("rate 333,334, 3 × IDLE 1", "shares 1, 0, 1, charge 2"),
    // quarters; 0.6, 1.2, 1.8, 2.4, 3
    ("rate 250,000, 8 × IDLE 1", "shares 1, 0, 0, 0, 1, 0, 0, 0, charge 2"),
    ("rate 600,000, 5 × IDLE 1", "shares 1, 1, 0, 1, 0, charge 3"),
    // 999,998.000001; 999,999; 999,999.999999; 1,000,000.999998
    ("rate 999,999, IDLE 999,999, 3 × IDLE 1", "shares 999,999, 0, 1, 1, charge 1,000,001"),
    // steps of no cycles have no share, wherever they stand
    (
        "rate 307, PC 0x08000000, IDLE 10, LATCH 5, IDLE 0, WAITCNT 0x4000, IDLE 3,257",
        "shares 0, 1, 0, 0, 0, 1, charge 2, total 3,267",
    ),
    ("rate 1,000,000, IDLE 7, RESTART 0x08000100, FETCH 0x08000100, IDLE 7", "shares 7, 0, 0, 7, charge 14"),
    // the example of `bench`: 0, 0, 27, 1 and 3 cycles; it is a whole run besides
    (
        "rate 1,000,000, WAITCNT 0x4000, RESTART 0x08000100, IDLE 27, Thumb 0x1C00 at 0x08000100, READ 2 at 0x02000000",
        "shares 0, 0, 27, 1, 3, charge 31, total 31, hits 1, 0, count 6",
    ),
    (
        "rate 307, WAITCNT 0x4000, RESTART 0x08000100, IDLE 27, Thumb 0x1C00 at 0x08000100, READ 2 at 0x02000000",
        "shares 0, 0, 1, 0, 0, charge 1, total 31",
    ),
    (
        "rate 100,000, WAITCNT 0x4000, RESTART 0x08000100, IDLE 27, Thumb 0x1C00 at 0x08000100, READ 2 at 0x02000000",
        "shares 0, 0, 3, 0, 1, charge 4, total 31",
    ),
    (
        "rate 250,000, WAITCNT 0x4000, RESTART 0x08000100, IDLE 27, Thumb 0x1C00 at 0x08000100, READ 2 at 0x02000000",
        "shares 0, 0, 7, 0, 1, charge 8, total 31",
    ),
    (
        "rate 500,000, WRITE 4 of 1 at 0x02000000, READ 2 at 0x02000000, WRITE 1 of 2 at 0x03000000",
        "shares 3, 2, 0, charge 5, cycles 6, 3, 1, hits 4, 0, 1, changed 2",
    ),
    // the longest step, alone and twice: 1,318,554.959565 and 2,637,109.91913
    ("rate 1, IDLE 4,294,967,295", "charge 4,295"),
    ("rate 307, IDLE 4,294,967,295", "charge 1,318,555"),
    ("rate 307, 2 × IDLE 4,294,967,295", "shares 1,318,555, 1,318,555, charge 2,637,110"),
    ("rate 999,999, IDLE 4,294,967,295", "charge 4,294,963,001"),
    ("rate 1,000,000, 2 × IDLE 4,294,967,295", "shares 4,294,967,295, 4,294,967,295, charge 8,589,934,590"),
    // the longest sheets: 17,592,186,040,320 cycles are the most that there are, 17,587,891,073,025 those before the last step
    (
        "rate 1,000,000, 4,096 × IDLE 4,294,967,295",
        "shares 4,294,967,295, 4,294,967,295, charge 17,592,186,040,320, total 17,592,186,040,320",
    ),
    ("rate 999,999, 4,096 × IDLE 4,294,967,295", "shares 4,294,963,000, charge 17,592,168,448,134, total 17,592,186,040,320"),
    ("rate 1, 4,096 × IDLE 4,294,967,295", "shares 4,295, charge 17,592,187"),
    ("rate 1, 4,096 × IDLE 1", "shares 0, 0, charge 1, total 4,096"),
];
