// The lines of single symbols, for `symbols.rs`.
use super::container::{cstring, decimal, u16_at, u32_at};
use super::registers::Machine;
use super::Names;

const HEX: [[u8; 2]; 256] = {
    let (mut pairs, mut n) = ([[0; 2]; 256], 0);
    while n < 256 {
        pairs[n] = [b"0123456789abcdef"[n >> 4], b"0123456789abcdef"[n & 15]];
        n += 1;
    }
    pairs
};

const PROCEDURE: [&str; 8] = ["nofpo", "int", "far", "never", "notreached", "cust_call", "noinline", "optdbginfo"];
const LOCAL: [&str; 11] = [
    "param", "addrtaken", "compgenx", "aggregate", "aggregated", "aliased", "alias", "retvalue", "optimizedout", "enreg_glob",
    "enreg_stat",
];
const COMPILE: [&str; 12] = [
    "edit_and_continue", "no_debug_info", "link_time_codegen", "no_data_align", "managed", "security_checks", "hot_patch",
    "cvtcil", "msil_module", "sdl", "pgo", "exp_module",
];
// Bits 14 to 17 are no flags.
const FRAME: [&str; 23] = [
    "alloca", "setjmp", "longjmp", "inline_asm", "eh", "inline_spec", "seh", "naked", "security_checks", "async_eh",
    "gs_no_stack_ordering", "was_inlined", "gs_check", "safe_buffers", "", "", "", "", "pogo_on", "valid_counts", "opt_speed",
    "guard_cf", "guard_cfw",
];

fn hex_bytes(out: &mut Vec<u8>, bytes: &[u8]) {
    for &byte in bytes {
        out.extend_from_slice(&HEX[usize::from(byte)]);
    }
}

fn text(out: &mut Vec<u8>, label: &str) {
    out.extend_from_slice(label.as_bytes());
}

fn index(out: &mut Vec<u8>, label: &str, n: u32) {
    text(out, label);
    let digits = n.to_be_bytes().map(|byte| HEX[usize::from(byte)]);
    out.extend_from_slice(digits.as_flattened());
}

fn optional_index(out: &mut Vec<u8>, label: &str, n: u32) {
    if n == 0 {
        text(out, label);
        out.push(b'-');
    } else {
        index(out, label, n);
    }
}

fn number(out: &mut Vec<u8>, label: &str, n: u32) {
    text(out, label);
    decimal(out, n);
}

fn signed(out: &mut Vec<u8>, label: &str, n: i32) {
    text(out, label);
    if n < 0 {
        out.push(b'-');
    }
    decimal(out, n.unsigned_abs());
}

fn boolean(out: &mut Vec<u8>, label: &str, is_so: bool) {
    text(out, label);
    text(out, if is_so { "true" } else { "false" });
}

fn place(out: &mut Vec<u8>, label: &str, section: u16, offset: u32) {
    text(out, label);
    let [a, b] = section.to_be_bytes().map(|byte| HEX[usize::from(byte)]);
    let [c, d, e, f] = offset.to_be_bytes().map(|byte| HEX[usize::from(byte)]);
    out.extend_from_slice(&[a[0], a[1], b[0], b[1], b':', c[0], c[1], d[0], d[1], e[0], e[1], f[0], f[1]]);
}

/// A place that the record has at an offset.
fn place_at(out: &mut Vec<u8>, label: &str, b: &[u8], at: usize) {
    place(out, label, u16_at(b, at + 4), u32_at(b, at));
}

fn name(out: &mut Vec<u8>, b: &[u8], at: usize) {
    let name = cstring(b, at);
    if !name.is_empty() {
        out.push(b' ');
        out.extend_from_slice(name);
    }
}

fn flags(out: &mut Vec<u8>, label: &str, names: &[&str], bits: u32) {
    text(out, label);
    let start = out.len();
    for (_, name) in names.iter().enumerate().filter(|(k, name)| bits >> k & 1 != 0 && !name.is_empty()) {
        if out.len() > start {
            out.push(b'+');
        }
        text(out, name);
    }
    if out.len() == start {
        out.push(b'-');
    }
}

fn joined<T>(out: &mut Vec<u8>, label: &str, items: impl Iterator<Item = T>, put: impl Fn(&mut Vec<u8>, T)) {
    text(out, label);
    let start = out.len();
    for item in items {
        if out.len() > start {
            out.push(b',');
        }
        put(out, item);
    }
    if out.len() == start {
        out.push(b'-');
    }
}

fn register(out: &mut Vec<u8>, label: &str, machine: &Machine, number: u16) {
    text(out, label);
    match machine.register(number) {
        "" => hex_bytes(out, &number.to_be_bytes()),
        name => text(out, name),
    }
}

/// A range of code, and its gaps.
fn range(out: &mut Vec<u8>, b: &[u8], at: usize) {
    place_at(out, " range=", b, at);
    number(out, "+", u16_at(b, at + 6).into());
    joined(out, " gaps=", b[at + 8..].chunks_exact(4), |out, gap| {
        decimal(out, u16_at(gap, 0).into());
        number(out, "+", u16_at(gap, 2).into());
    });
}

fn scope(out: &mut Vec<u8>, b: &[u8]) {
    optional_index(out, " parent=", u32_at(b, 2));
    index(out, " end=", u32_at(b, 6));
    optional_index(out, " next=", u32_at(b, 10));
}

fn procedure(out: &mut Vec<u8>, names: &mut Names, b: &[u8]) {
    scope(out, b);
    number(out, " len=", u32_at(b, 14));
    number(out, " dbg_start_offset=", u32_at(b, 18));
    number(out, " dbg_end_offset=", u32_at(b, 22));
    index(out, " type_index=", u32_at(b, 26));
    place_at(out, " offset=", b, 30);
    flags(out, " flags=", &PROCEDURE, b[36].into());
    boolean(out, " global=", u16_at(b, 0) == 0x1110);
    text(out, " dpc=false");
    name(out, b, 37);
    names.put_type(out, u32_at(b, 26));
}

fn data(out: &mut Vec<u8>, names: &mut Names, b: &[u8], fixed: &str) {
    index(out, " type_index=", u32_at(b, 2));
    place_at(out, " offset=", b, 6);
    text(out, fixed);
    name(out, b, 12);
    names.put_type(out, u32_at(b, 2));
}

fn local(out: &mut Vec<u8>, names: &mut Names, b: &[u8]) {
    index(out, " S_LOCAL type_index=", u32_at(b, 2));
    flags(out, " flags=", &LOCAL, u16_at(b, 6).into());
    name(out, b, 8);
    names.put_type(out, u32_at(b, 2));
}

fn constant(out: &mut Vec<u8>, names: &mut Names, b: &[u8]) {
    index(out, " S_CONSTANT type_index=", u32_at(b, 2));
    text(out, " value=");
    let rest = &b[8..];
    let (value, width) = match u16_at(b, 6) {
        0x8000 => (i8::from_le_bytes([rest[0]]).into(), 1),
        0x8001 => (u16_at(rest, 0).cast_signed().into(), 2),
        0x8002 => (u16_at(rest, 0).into(), 2),
        0x8003 => (u32_at(rest, 0).cast_signed().into(), 4),
        0x8004 => (u32_at(rest, 0).into(), 4),
        0x8009 => (i64::from_le_bytes(rest[..8].try_into().unwrap()).into(), 8),
        0x800a => (u64::from_le_bytes(rest[..8].try_into().unwrap()).into(), 8),
        small => (i128::from(small), 0),
    };
    text(out, &value.to_string());
    text(out, " managed=false");
    name(out, rest, width);
    names.put_type(out, u32_at(b, 2));
}

fn frame(out: &mut Vec<u8>, machine: &Machine, b: &[u8]) {
    number(out, " S_FRAMEPROC frame_bytes=", u32_at(b, 2));
    number(out, " padding_bytes=", u32_at(b, 6));
    number(out, " padding_offset=", u32_at(b, 10));
    number(out, " saved_register_bytes=", u32_at(b, 14));
    place_at(out, " exception_handler=", b, 18);
    let bits = u32_at(b, 24);
    flags(out, " flags=", &FRAME, bits);
    text(out, " local_base=");
    text(out, machine.base(bits >> 14 & 3));
    text(out, " param_base=");
    text(out, machine.base(bits >> 16 & 3));
}

fn compiler(out: &mut Vec<u8>, b: &[u8]) {
    text(out, " S_COMPILE3 language=");
    text(out, match b[2] { 0 => "C", 1 => "Cpp", 3 => "Masm", 7 => "Link", 8 => "Cvtres", _ => panic!("language") });
    flags(out, " flags=", &COMPILE, u32_at(b, 2) >> 8);
    text(out, " cpu_type=");
    text(out, match u16_at(b, 6) { 3 => "Intel80386", 6 => "PentiumPro", 7 => "Pentium3", 0xd0 => "X64", _ => panic!("processor") });
    for (label, at) in [(" frontend_version=", 8), (" backend_version=", 16)] {
        number(out, label, u16_at(b, at).into());
        for part in 1..4 {
            number(out, ".", u16_at(b, at + 2 * part).into());
        }
    }
    text(out, " version_string=");
    out.extend_from_slice(cstring(b, 24));
}

fn environment(out: &mut Vec<u8>, b: &[u8]) {
    flags(out, " S_ENVBLOCK flags=", &["rev"], b[2].into());
    let strings = b[3..].split(|&byte| byte == 0).take_while(|it| !it.is_empty());
    joined(out, " strings=", strings, |out, string| out.extend_from_slice(string));
}

fn site(out: &mut Vec<u8>, names: &mut Names, b: &[u8]) {
    optional_index(out, " S_INLINESITE parent=", u32_at(b, 2));
    index(out, " end=", u32_at(b, 6));
    index(out, " inlinee=", u32_at(b, 10));
    text(out, " invocations=- annotations=");
    match &b[14..] {
        [] => out.push(b'-'),
        annotations => hex_bytes(out, annotations),
    }
    names.put_call(out, u32_at(b, 10));
}

fn inlinees(out: &mut Vec<u8>, b: &[u8]) {
    let (ids, counts) = b[6..].split_at(4 * u32_at(b, 2) as usize);
    joined(out, " S_INLINEES functions=", ids.chunks_exact(4), |out, id| index(out, "", u32_at(id, 0)));
    let counts = counts.chunks_exact(4).take(ids.len() / 4);
    joined(out, " invocations=", counts, |out, count| decimal(out, u32_at(count, 0)));
}

fn thunk(out: &mut Vec<u8>, b: &[u8]) {
    text(out, " S_THUNK32");
    scope(out, b);
    place_at(out, " offset=", b, 14);
    number(out, " len=", u16_at(b, 20).into());
    text(out, " kind=");
    text(out, match b[22] { 0 => "no_type", 3 => "p_code", 4 => "load", _ => panic!("thunk") });
    name(out, b, 23);
}

/// A record of where a variable is in a range of code.
fn ranged(out: &mut Vec<u8>, machine: &Machine, b: &[u8]) {
    match u16_at(b, 0) {
        0x1141 => {
            register(out, " S_DEFRANGE_REGISTER register=", machine, u16_at(b, 2));
            boolean(out, " maybe=", b[4] & 1 != 0);
            range(out, b, 6);
        }
        0x1142 => {
            signed(out, " S_DEFRANGE_FRAMEPOINTER_REL offset=", u32_at(b, 2).cast_signed());
            range(out, b, 6);
        }
        0x1143 => {
            register(out, " S_DEFRANGE_SUBFIELD_REGISTER register=", machine, u16_at(b, 2));
            boolean(out, " maybe=", b[4] & 1 != 0);
            number(out, " offset_in_parent=", u32_at(b, 6) & 0xfff);
            range(out, b, 10);
        }
        0x1144 => signed(out, " S_DEFRANGE_FRAMEPOINTER_REL_FULL_SCOPE offset=", u32_at(b, 2).cast_signed()),
        _ => {
            register(out, " S_DEFRANGE_REGISTER_REL register=", machine, u16_at(b, 2));
            match u16_at(b, 4) {
                word if word & 1 != 0 => number(out, " subfield=", (word >> 4).into()),
                _ => text(out, " subfield=-"),
            }
            signed(out, " offset=", u32_at(b, 6).cast_signed());
            range(out, b, 10);
        }
    }
}

/// A variable at an offset from a register.
fn relative(out: &mut Vec<u8>, names: &mut Names, machine: &Machine, b: &[u8]) {
    if u16_at(b, 0) == 0x110b {
        signed(out, " S_BPREL32 offset=", u32_at(b, 2).cast_signed());
        index(out, " type_index=", u32_at(b, 6));
        return name(out, b, 10);
    }
    signed(out, " S_REGREL32 offset=", u32_at(b, 2).cast_signed());
    index(out, " type_index=", u32_at(b, 6));
    register(out, " register=", machine, u16_at(b, 10));
    name(out, b, 12);
    names.put_type(out, u32_at(b, 6));
}

/// A record of the image and its parts.
fn image_part(out: &mut Vec<u8>, b: &[u8]) {
    match u16_at(b, 0) {
        0x1136 => {
            number(out, " S_SECTION section=", u16_at(b, 2).into());
            number(out, " alignment=", b[4].into());
            index(out, " address=", u32_at(b, 6));
            number(out, " len=", u32_at(b, 10));
            index(out, " characteristics=", u32_at(b, 14));
            name(out, b, 18);
        }
        0x1137 => {
            number(out, " S_COFFGROUP len=", u32_at(b, 2));
            index(out, " characteristics=", u32_at(b, 6));
            place_at(out, " offset=", b, 10);
            name(out, b, 16);
        }
        _ => {
            let kind = if u16_at(b, 2) == 0 { "Incremental" } else { "BranchIsland" };
            text(out, " S_TRAMPOLINE tramp_type=");
            text(out, kind);
            number(out, " size=", u16_at(b, 4).into());
            place(out, " thunk=", u16_at(b, 14), u32_at(b, 6));
            place(out, " target=", u16_at(b, 16), u32_at(b, 10));
        }
    }
}

fn block(out: &mut Vec<u8>, b: &[u8]) {
    index(out, " S_BLOCK32 parent=", u32_at(b, 2));
    index(out, " end=", u32_at(b, 6));
    number(out, " len=", u32_at(b, 10));
    place_at(out, " offset=", b, 14);
    name(out, b, 20);
}

fn user_type(out: &mut Vec<u8>, names: &mut Names, b: &[u8]) {
    index(out, " S_UDT type_index=", u32_at(b, 2));
    name(out, b, 6);
    names.put_type(out, u32_at(b, 2));
}

fn object(out: &mut Vec<u8>, b: &[u8]) {
    number(out, " S_OBJNAME signature=", u32_at(b, 2));
    name(out, b, 6);
}

/// The line of the symbol at an index.
pub fn put_record(out: &mut Vec<u8>, names: &mut Names, machine: &Machine, at: u32, b: &[u8]) {
    index(out, "", at);
    match u16_at(b, 0) {
        0x0006 => text(out, " S_END"),
        0x114e => text(out, " S_INLINESITE_END"),
        0x113e => local(out, names, b),
        0x1141..=0x1145 => ranged(out, machine, b),
        0x114d => site(out, names, b),
        0x1103 => block(out, b),
        kind @ (0x110f | 0x1110) => {
            text(out, if kind == 0x1110 { " S_GPROC32" } else { " S_LPROC32" });
            procedure(out, names, b);
        }
        0x1012 => frame(out, machine, b),
        0x1168 => inlinees(out, b),
        kind @ (0x110c | 0x110d) => {
            text(out, if kind == 0x110d { " S_GDATA32" } else { " S_LDATA32" });
            data(out, names, b, if kind == 0x110d { " global=true managed=false" } else { " global=false managed=false" });
        }
        kind @ (0x1112 | 0x1113) => {
            text(out, if kind == 0x1113 { " S_GTHREAD32" } else { " S_LTHREAD32" });
            data(out, names, b, if kind == 0x1113 { " global=true" } else { " global=false" });
        }
        0x1107 => constant(out, names, b),
        0x1108 => user_type(out, names, b),
        0x110b | 0x1111 => relative(out, names, machine, b),
        0x1101 => object(out, b),
        0x1102 => thunk(out, b),
        0x1124 => {
            text(out, " S_UNAMESPACE");
            name(out, b, 2);
        }
        0x112c | 0x1136 | 0x1137 => image_part(out, b),
        0x113c => compiler(out, b),
        0x113d => environment(out, b),
        0x114c => index(out, " S_BUILDINFO id=", u32_at(b, 2)),
        kind => panic!("kind {kind:04x}"),
    }
    out.push(b'\n');
}
