//! The header, with a different value in each field, and machines.

use super::is;
use crate::tests::sample::stream;
use crate::*;
use pdb_base::{Error, Feature, Result, StreamIndex};
use std::test::Fail;

const HEADER: &[u8; 64] =
    b"\xff\xff\xff\xff\x77\x09\x31\x01\x02\0\0\0\x01\0\x02\0\x03\0\x04\0\x05\0\x06\0\x4c\0\0\0\x20\0\0\0\x07\0\0\0\x08\0\0\0\x09\0\0\0\x0a\0\0\0\x0c\0\0\0\x0b\0\0\0\x0d\0\x64\x86\x0e\0\0\0";

#[test]
fn the_header_has_its_fields_by_their_places(rt: HostRuntime) -> Result<()> {
    let header = DBIHeader::parse(stream(&rt, HEADER))?;
    is(&rt, "header.signature", &header.signature, &0xffff_ffff);
    assert!(rt; matches!(header.version, HeaderVersion::V70));
    is(&rt, "header.age", &header.age, &2);
    is(
        &rt,
        "header.gs_symbols_stream",
        &header.gs_symbols_stream,
        &StreamIndex(1),
    );
    is(&rt, "header.internal_version", &header.internal_version, &2);
    is(
        &rt,
        "header.ps_symbols_stream",
        &header.ps_symbols_stream,
        &StreamIndex(3),
    );
    is(
        &rt,
        "header.pdb_dll_build_version",
        &header.pdb_dll_build_version,
        &4,
    );
    is(
        &rt,
        "header.symbol_records_stream",
        &header.symbol_records_stream,
        &StreamIndex(5),
    );
    is(
        &rt,
        "header.pdb_dll_rbld_version",
        &header.pdb_dll_rbld_version,
        &6,
    );
    is(
        &rt,
        "header.module_list_size",
        &header.module_list_size,
        &0x4c,
    );
    is(
        &rt,
        "header.section_contribution_size",
        &header.section_contribution_size,
        &0x20,
    );
    is(&rt, "header.section_map_size", &header.section_map_size, &7);
    is(&rt, "header.file_info_size", &header.file_info_size, &8);
    is(
        &rt,
        "header.type_server_map_size",
        &header.type_server_map_size,
        &9,
    );
    is(
        &rt,
        "header.mfc_type_server_index",
        &header.mfc_type_server_index,
        &10,
    );
    is(
        &rt,
        "header.debug_header_size",
        &header.debug_header_size,
        &12,
    );
    is(
        &rt,
        "header.ec_substream_size",
        &header.ec_substream_size,
        &11,
    );
    is(&rt, "header.flags", &header.flags, &13);
    is(&rt, "header.machine_type", &header.machine_type, &0x8664);
    is(&rt, "header.reserved", &header.reserved, &14);
    let information = DebugInformation::parse(stream(&rt, HEADER))?;
    is(
        &rt,
        "information.header().age",
        &(information.header().age),
        &2,
    );
    is(&rt, "information.age()", &information.age(), &Some(2));
    is(
        &rt,
        "information.machine_type()?",
        &information.machine_type()?,
        &MachineType::Amd64,
    );
    Ok(())
}

#[test]
fn a_short_or_ancient_header_is_refused(rt: HostRuntime) {
    for k in 0..64 {
        is(
            &rt,
            "cut to",
            &DBIHeader::parse(stream(&rt, &HEADER[..k])).err(),
            &Some(Error::UnexpectedEof),
        );
    }
    let ancient = Some(Error::UnimplementedFeature(Feature::AncientDbiHeader));
    let zeros = [0u8; 64];
    is(
        &rt,
        "DBIHeader::parse(stream(&rt, &zeros)).err()",
        &DBIHeader::parse(stream(&rt, &zeros)).err(),
        &ancient,
    );
    is(
        &rt,
        "DebugInformation::parse(stream(&rt, &zeros))",
        &DebugInformation::parse(stream(&rt, &zeros)).err(),
        &ancient,
    );
    is(
        &rt,
        "DebugInformation::parse(stream(&rt, &zeros[.",
        &DebugInformation::parse(stream(&rt, &zeros[..63])).err(),
        &Some(Error::UnexpectedEof),
    );
}

#[test]
fn age_0_and_an_unlisted_machine_say_nothing(rt: HostRuntime) -> Result<()> {
    let mut bytes = *HEADER;
    bytes[8] = 0;
    bytes[58] = 0x34;
    bytes[59] = 0x12;
    let information = DebugInformation::parse(stream(&rt, &bytes))?;
    is(&rt, "information.age()", &information.age(), &None);
    is(
        &rt,
        "information.machine_type()?",
        &information.machine_type()?,
        &MachineType::Unknown,
    );
    Ok(())
}

#[test]
fn versions_are_dates(rt: HostRuntime) {
    assert!(rt; matches!(HeaderVersion::from(930803), HeaderVersion::V41));
    assert!(rt; matches!(HeaderVersion::from(19960307), HeaderVersion::V50));
    assert!(rt; matches!(HeaderVersion::from(19970606), HeaderVersion::V60));
    assert!(rt; matches!(HeaderVersion::from(19990903), HeaderVersion::V70));
    assert!(rt; matches!(HeaderVersion::from(20091201), HeaderVersion::V110));
    assert!(rt;
        matches!(
            HeaderVersion::from(20000404),
            HeaderVersion::OtherValue(20000404)
        )
    );
}

const MACHINES: [(u16, MachineType); 26] = [
    (0x0, MachineType::Unknown),
    (0x13, MachineType::Am33),
    (0x8664, MachineType::Amd64),
    (0x1c0, MachineType::Arm),
    (0xaa64, MachineType::Arm64),
    (0x1c4, MachineType::ArmNT),
    (0xebc, MachineType::Ebc),
    (0x14c, MachineType::X86),
    (0x200, MachineType::Ia64),
    (0x9041, MachineType::M32R),
    (0x266, MachineType::Mips16),
    (0x366, MachineType::MipsFpu),
    (0x466, MachineType::MipsFpu16),
    (0x1f0, MachineType::PowerPC),
    (0x1f1, MachineType::PowerPCFP),
    (0x166, MachineType::R4000),
    (0x5032, MachineType::RiscV32),
    (0x5064, MachineType::RiscV64),
    (0x5128, MachineType::RiscV128),
    (0x1a2, MachineType::SH3),
    (0x1a3, MachineType::SH3DSP),
    (0x1a6, MachineType::SH4),
    (0x1a8, MachineType::SH5),
    (0x1c2, MachineType::Thumb),
    (0x169, MachineType::WceMipsV2),
    (0xffff, MachineType::Invalid),
];

fn number_of(machine: MachineType) -> u16 {
    machine as u16
}

#[test]
fn machines_have_numbers(rt: HostRuntime) {
    for (number, machine) in MACHINES {
        is(
            &rt,
            "MachineType::from(number)",
            &MachineType::from(number),
            &machine,
        );
        is(&rt, "number_of(machine)", &number_of(machine), &number);
    }
    is(
        &rt,
        "MachineType::from(0x1234)",
        &MachineType::from(0x1234),
        &MachineType::Unknown,
    );
}

#[test]
fn machines_show_their_names(rt: HostRuntime) -> std::result::Result<(), Fail> {
    let shown = MachineType::Amd64.to_string(rt.alloc())?;
    is(&rt, "shown.as_str()", &shown.as_str(), &("Amd64"));
    let shown = MachineType::WceMipsV2.to_string(rt.alloc())?;
    is(&rt, "shown.as_str()", &shown.as_str(), &("WceMipsV2"));
    let shown = MachineType::Unknown.to_string(rt.alloc())?;
    is(&rt, "shown.as_str()", &shown.as_str(), &("Unknown"));
    Ok(())
}
