//! The proved library as assembly text, which the compiler assembles.

use std::arch::global_asm;

#[cfg(target_arch = "x86_64")]
global_asm!(include_str!(env!("FADRINZO_TEXT")), options(att_syntax, raw));

#[cfg(not(target_arch = "x86_64"))]
global_asm!(include_str!(env!("FADRINZO_TEXT")), options(raw));
