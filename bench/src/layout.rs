//! Where a loop lies in a line of the processor's code cache can cost it half its speed, and any change of the program moves
//! it. So the bench is built several times, all of its code moved by SHIFT bytes.
core::arch::global_asm!(
    ".pushsection .text.hot.shift, \"axR\"",
    concat!(".fill ", env!("SHIFT"), ", 1, 0"),
    ".popsection"
);
