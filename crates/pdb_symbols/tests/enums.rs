//! Processors and languages.

use crate::tests::support::is;
use crate::{CPUType, SourceLanguage};
use std::alloc::AllocError;

#[test]
fn processors_have_numbers_and_names(rt: HostRuntime) -> std::result::Result<(), AllocError> {
    let rows: [(u16, CPUType, &str); 60] = [
        (0x0, CPUType::Intel8080, "Intel8080"),
        (0x1, CPUType::Intel8086, "Intel8086"),
        (0x2, CPUType::Intel80286, "Intel80286"),
        (0x3, CPUType::Intel80386, "Intel80386"),
        (0x4, CPUType::Intel80486, "Intel80486"),
        (0x5, CPUType::Pentium, "Pentium"),
        (0x6, CPUType::PentiumPro, "PentiumPro"),
        (0x7, CPUType::Pentium3, "Pentium3"),
        (0x10, CPUType::MIPS, "MIPS"),
        (0x11, CPUType::MIPS16, "MIPS16"),
        (0x12, CPUType::MIPS32, "MIPS32"),
        (0x13, CPUType::MIPS64, "MIPS64"),
        (0x14, CPUType::MIPSI, "MIPSI"),
        (0x15, CPUType::MIPSII, "MIPSII"),
        (0x16, CPUType::MIPSIII, "MIPSIII"),
        (0x17, CPUType::MIPSIV, "MIPSIV"),
        (0x18, CPUType::MIPSV, "MIPSV"),
        (0x20, CPUType::M68000, "M68000"),
        (0x21, CPUType::M68010, "M68010"),
        (0x22, CPUType::M68020, "M68020"),
        (0x23, CPUType::M68030, "M68030"),
        (0x24, CPUType::M68040, "M68040"),
        (0x30, CPUType::Alpha, "Alpha"),
        (0x31, CPUType::Alpha21164, "Alpha21164"),
        (0x32, CPUType::Alpha21164A, "Alpha21164A"),
        (0x33, CPUType::Alpha21264, "Alpha21264"),
        (0x34, CPUType::Alpha21364, "Alpha21364"),
        (0x40, CPUType::PPC601, "PPC601"),
        (0x41, CPUType::PPC603, "PPC603"),
        (0x42, CPUType::PPC604, "PPC604"),
        (0x43, CPUType::PPC620, "PPC620"),
        (0x44, CPUType::PPCFP, "PPCFP"),
        (0x45, CPUType::PPCBE, "PPCBE"),
        (0x50, CPUType::SH3, "SH3"),
        (0x51, CPUType::SH3E, "SH3E"),
        (0x52, CPUType::SH3DSP, "SH3DSP"),
        (0x53, CPUType::SH4, "SH4"),
        (0x54, CPUType::SHMedia, "SHMedia"),
        (0x60, CPUType::ARM3, "ARM3"),
        (0x61, CPUType::ARM4, "ARM4"),
        (0x62, CPUType::ARM4T, "ARM4T"),
        (0x63, CPUType::ARM5, "ARM5"),
        (0x64, CPUType::ARM5T, "ARM5T"),
        (0x65, CPUType::ARM6, "ARM6"),
        (0x66, CPUType::ARM_XMAC, "ARM_XMAC"),
        (0x67, CPUType::ARM_WMMX, "ARM_WMMX"),
        (0x68, CPUType::ARM7, "ARM7"),
        (0x69, CPUType::ARM64, "ARM64"),
        (0x70, CPUType::Omni, "Omni"),
        (0x80, CPUType::Ia64, "Ia64"),
        (0x81, CPUType::Ia64_2, "Ia64_2"),
        (0x90, CPUType::CEE, "CEE"),
        (0xa0, CPUType::AM33, "AM33"),
        (0xb0, CPUType::M32R, "M32R"),
        (0xc0, CPUType::TriCore, "TriCore"),
        (0xd0, CPUType::X64, "X64"),
        (0xe0, CPUType::EBC, "EBC"),
        (0xf0, CPUType::Thumb, "Thumb"),
        (0xf4, CPUType::ARMNT, "ARMNT"),
        (0x100, CPUType::D3D11_Shader, "D3D11_Shader"),
    ];
    for (number, cpu, name) in rows {
        is(&rt, name, &CPUType::from(number), &cpu);
        is(&rt, name, &(cpu as u16), &number);
        let text = format!(in rt.alloc(); "{cpu}")?;
        is(&rt, "shown", &text.as_str(), &name);
    }
    for number in [0, 8, 0x19, 0x25, 0x46, 0x6a, 0x71, 0xf6, 0x101, 0xffff] {
        is(&rt, "others", &CPUType::from(number), &CPUType::Intel8080);
    }
    Ok(())
}

#[test]
fn languages_have_numbers_and_names(rt: HostRuntime) -> std::result::Result<(), AllocError> {
    let rows: [(u8, SourceLanguage, &str); 18] = [
        (0x0, SourceLanguage::C, "C"),
        (0x1, SourceLanguage::Cpp, "Cpp"),
        (0x2, SourceLanguage::Fortran, "Fortran"),
        (0x3, SourceLanguage::Masm, "Masm"),
        (0x4, SourceLanguage::Pascal, "Pascal"),
        (0x5, SourceLanguage::Basic, "Basic"),
        (0x6, SourceLanguage::Cobol, "Cobol"),
        (0x7, SourceLanguage::Link, "Link"),
        (0x8, SourceLanguage::Cvtres, "Cvtres"),
        (0x9, SourceLanguage::Cvtpgd, "Cvtpgd"),
        (0xa, SourceLanguage::CSharp, "CSharp"),
        (0xb, SourceLanguage::VB, "VB"),
        (0xc, SourceLanguage::ILAsm, "ILAsm"),
        (0xd, SourceLanguage::Java, "Java"),
        (0xe, SourceLanguage::JScript, "JScript"),
        (0xf, SourceLanguage::MSIL, "MSIL"),
        (0x10, SourceLanguage::HLSL, "HLSL"),
        (0x44, SourceLanguage::D, "D"),
    ];
    for (number, language, name) in rows {
        is(&rt, name, &SourceLanguage::from(number), &language);
        is(&rt, name, &(language as u8), &number);
        let text = format!(in rt.alloc(); "{language}")?;
        is(&rt, "shown", &text.as_str(), &name);
    }
    for number in [3, 0x11, 0x15, 0x43, 0xff] {
        is(
            &rt,
            "others",
            &SourceLanguage::from(number),
            &SourceLanguage::Masm,
        );
    }
    Ok(())
}
