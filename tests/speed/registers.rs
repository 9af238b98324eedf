// The names of registers, for `symbols.rs`.

// Each number is that of the register behind it, and the next registers have the next numbers.
const X86: &str = "
1 al cl dl bl ah ch dh bh ax cx dx bx sp bp si di eax ecx edx ebx esp ebp esi edi es cs ss ds fs gs ip flags eip eflags 40
temp temph quote pcdr3 pcdr4 pcdr5 pcdr6 pcdr7 80 cr0 cr1 cr2 cr3 cr4 90 dr0 dr1 dr2 dr3 dr4 dr5 dr6 dr7 110 gdtr gdtl
idtr idtl ldtr tr pseudo1 pseudo2 pseudo3 pseudo4 pseudo5 pseudo6 pseudo7 pseudo8 pseudo9 128 st0 st1 st2 st3 st4 st5 st6
st7 ctrl stat tag fpip fpcs fpdo fpds isem fpeip fpedo mm0 mm1 mm2 mm3 mm4 mm5 mm6 mm7 xmm0 xmm1 xmm2 xmm3 xmm4 xmm5 xmm6
xmm7 xmm0_0 xmm0_1 xmm0_2 xmm0_3 xmm1_0 xmm1_1 xmm1_2 xmm1_3 xmm2_0 xmm2_1 xmm2_2 xmm2_3 xmm3_0 xmm3_1 xmm3_2 xmm3_3
xmm4_0 xmm4_1 xmm4_2 xmm4_3 xmm5_0 xmm5_1 xmm5_2 xmm5_3 xmm6_0 xmm6_1 xmm6_2 xmm6_3 xmm7_0 xmm7_1 xmm7_2 xmm7_3 xmm0l
xmm1l xmm2l xmm3l xmm4l xmm5l xmm6l xmm7l xmm0h xmm1h xmm2h xmm3h xmm4h xmm5h xmm6h xmm7h 211 mxcsr edxeax 220 emm0l emm1l
emm2l emm3l emm4l emm5l emm6l emm7l emm0h emm1h emm2h emm3h emm4h emm5h emm6h emm7h mm00 mm01 mm10 mm11 mm20 mm21 mm30
mm31 mm40 mm41 mm50 mm51 mm60 mm61 mm70 mm71 ymm0 ymm1 ymm2 ymm3 ymm4 ymm5 ymm6 ymm7 396 bnd0 bnd1 bnd2
";

const X64: &str = "
1 al cl dl bl ah ch dh bh ax cx dx bx sp bp si di eax ecx edx ebx esp ebp esi edi es cs ss ds fs gs ip flags rip eflags 40
temp temph quote pcdr3 pcdr4 pcdr5 pcdr6 pcdr7 80 cr0 cr1 cr2 cr3 cr4 90 dr0 dr1 dr2 dr3 dr4 dr5 dr6 dr7 110 gdtr gdtl
idtr idtl ldtr tr pseudo1 pseudo2 pseudo3 pseudo4 pseudo5 pseudo6 pseudo7 pseudo8 pseudo9 128 st0 st1 st2 st3 st4 st5 st6
st7 ctrl stat tag fpip fpcs fpdo fpds isem fpeip fpedo mm0 mm1 mm2 mm3 mm4 mm5 mm6 mm7 xmm0 xmm1 xmm2 xmm3 xmm4 xmm5 xmm6
xmm7 xmm0_0 xmm0_1 xmm0_2 xmm0_3 xmm1_0 xmm1_1 xmm1_2 xmm1_3 xmm2_0 xmm2_1 xmm2_2 xmm2_3 xmm3_0 xmm3_1 xmm3_2 xmm3_3
xmm4_0 xmm4_1 xmm4_2 xmm4_3 xmm5_0 xmm5_1 xmm5_2 xmm5_3 xmm6_0 xmm6_1 xmm6_2 xmm6_3 xmm7_0 xmm7_1 xmm7_2 xmm7_3 xmm0l
xmm1l xmm2l xmm3l xmm4l xmm5l xmm6l xmm7l xmm0h xmm1h xmm2h xmm3h xmm4h xmm5h xmm6h xmm7h 211 mxcsr edxeax 220 emm0l emm1l
emm2l emm3l emm4l emm5l emm6l emm7l emm0h emm1h emm2h emm3h emm4h emm5h emm6h emm7h mm00 mm01 mm10 mm11 mm20 mm21 mm30
mm31 mm40 mm41 mm50 mm51 mm60 mm61 mm70 mm71 xmm8 xmm9 xmm10 xmm11 xmm12 xmm13 xmm14 xmm15 xmm8_0 xmm8_1 xmm8_2 xmm8_3
xmm9_0 xmm9_1 xmm9_2 xmm9_3 xmm10_0 xmm10_1 xmm10_2 xmm10_3 xmm11_0 xmm11_1 xmm11_2 xmm11_3 xmm12_0 xmm12_1 xmm12_2
xmm12_3 xmm13_0 xmm13_1 xmm13_2 xmm13_3 xmm14_0 xmm14_1 xmm14_2 xmm14_3 xmm15_0 xmm15_1 xmm15_2 xmm15_3 xmm8l xmm9l xmm10l
xmm11l xmm12l xmm13l xmm14l xmm15l xmm8h xmm9h xmm10h xmm11h xmm12h xmm13h xmm14h xmm15h 324 sil dil bpl spl rax rbx rcx
rdx rsi rdi rbp rsp r8 r9 r10 r11 r12 r13 r14 r15 r8b r9b r10b r11b r12b r13b r14b r15b r8w r9w r10w r11w r12w r13w r14w
r15w r8d r9d r10d r11d r12d r13d r14d r15d ymm0 ymm1 ymm2 ymm3 ymm4 ymm5 ymm6 ymm7 ymm8 ymm9 ymm10 ymm11 ymm12 ymm13 ymm14
ymm15 396 bnd0 bnd1 bnd2 694 xmm16 xmm17 xmm18 xmm19 xmm20 xmm21 xmm22 xmm23 xmm24 xmm25 xmm26 xmm27 xmm28 xmm29 xmm30
xmm31 ymm16 ymm17 ymm18 ymm19 ymm20 ymm21 ymm22 ymm23 ymm24 ymm25 ymm26 ymm27 ymm28 ymm29 ymm30 ymm31 zmm0 zmm1 zmm2 zmm3
zmm4 zmm5 zmm6 zmm7 zmm8 zmm9 zmm10 zmm11 zmm12 zmm13 zmm14 zmm15 zmm16 zmm17 zmm18 zmm19 zmm20 zmm21 zmm22 zmm23 zmm24
zmm25 zmm26 zmm27 zmm28 zmm29 zmm30 zmm31 k0 k1 k2 k3 k4 k5 k6 k7
";

/// A machine with the names of its registers, and of those that frames count from.
pub struct Machine {
    registers: Vec<&'static str>,
    bases: [&'static str; 4],
}

impl Machine {
    pub fn x86() -> Self {
        Machine { registers: listed(X86), bases: ["-", "vframe", "ebp", "ebx"] }
    }

    pub fn x64() -> Self {
        Machine { registers: listed(X64), bases: ["-", "rsp", "rbp", "r13"] }
    }

    /// The name of a register; empty where it has none.
    pub fn register(&self, number: u16) -> &'static str {
        match number {
            30006 => "vframe",
            _ => self.registers.get(usize::from(number)).copied().unwrap_or(""),
        }
    }

    pub fn base(&self, encoded: u32) -> &'static str {
        self.bases[encoded as usize]
    }
}

fn listed(names: &'static str) -> Vec<&'static str> {
    let mut listed = Vec::new();
    for word in names.split_whitespace() {
        match word.parse() {
            Ok(number) => listed.resize(number, ""),
            Err(_) => listed.push(word),
        }
    }
    listed
}
