//! Tests of `wildcards`.

use crate::tests::fakes::is;
use crate::wildcards::matches;

#[test]
fn names_and_patterns(rt: HostRuntime) {
    let cases: [(&[u8], &[u8], bool); 17] = [
        (b"", b"", true),
        (b"", b"a", false),
        (b"ab", b"ab", true),
        (b"ab", b"aB", false),
        (b"ab", b"abc", false),
        (b"*", b"", true),
        (b"*", b"abc", true),
        (b"**", b"a", true),
        (b"a*", b"abc", true),
        (b"*c", b"abc", true),
        (b"*b*", b"abc", true),
        (b"a*b*c", b"aXXbYYbZZc", true),
        (b"*ab*ab", b"abab", true),
        (b"*ab*ab", b"abba", false),
        (b"*aab", b"aaab", true),
        (b"a*a", b"a", false),
        (b"?*", b"ab", false),
    ];
    for (pattern, name, wanted) in cases {
        is(&rt, "matches", &matches(pattern, name), &wanted);
    }
}
