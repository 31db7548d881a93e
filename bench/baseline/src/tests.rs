//! Worked examples of the rules, as replay files.

use crate::*;
fn run(s: &str) -> String {
    let mut o = vec![];
    let f = replay(s.replace("; ", "\n").as_bytes(), &mut o).unwrap();
    assert!(f.is_none(), "fault {f:?}");
    String::from_utf8(o).unwrap().trim_end().replace('\n', "; ")
}
fn u(tau: u64, oid: u32, r: u8, delta: i32, id: u32) -> String {
    packet_hex(&Packet::Upd(4, Height { tau, oid, r, delta, id }))
}
fn c(t: u64, o: u32) -> String {
    packet_hex(&Packet::Clr(4, t, o))
}
const Q: &str = "0101000000000004";
fn routed() -> String {
    format!("node 3 links 2,4 dests 4; 1 up 2; 1 up 4; 2 from 2 {Q}; 3 from 2 {}", u(0, 0, 0, 2, 2))
}
#[test]
fn a_first_route() {
    assert_eq!(u(0, 0, 0, 1, 3), "0102000000000004000000000000000000000000000000000000000100000003");
    assert_eq!(
        run(&(routed() + "; 3 show")),
        format!(
            "send {}; to 4 height (0,0,0,1,3) flag 0 hop 4; via 2 (0,0,0,2,2) up; via 4 (0,0,0,0,4) down",
            u(0, 0, 0, 1, 3)
        )
    );
}
#[test]
fn a_reversal_and_its_end() {
    let s = routed()
        + &format!("; 7 down 4; 7 show; 8 from 2 {}; 9 from 2 {}; 9 show", u(7, 3, 0, -1, 2), u(7, 3, 1, -1, 2));
    let sent = [u(0, 0, 0, 1, 3), u(7, 3, 0, 0, 3)];
    let shown = "to 4 height (7,3,0,0,3) flag 0 hop 2; via 2 (0,0,0,2,2) down";
    let erased = format!("send {}; to 4 height - flag 0 hop -; via 2 - none", c(7, 3));
    assert_eq!(run(&s), format!("send {}; send {}; {shown}; {erased}", sent[0], sent[1]));
}
#[test]
fn a_line_of_four() {
    let mut n = Net::line(4, 4);
    n.step(0, Input::Need(4), 1);
    n.settle(1);
    let f = |n: &Net| (0..4).map(|i| height_text(n.cores[i].height(4))).collect::<Vec<_>>().join(" ");
    assert_eq!(f(&n), "(0,0,0,3,1) (0,0,0,2,2) (0,0,0,1,3) (0,0,0,0,4)");
    assert_eq!((0..3).map(|i| n.cores[i].next_hop(4).unwrap()).collect::<Vec<_>>(), [2, 3, 4]);
    n.log.clear();
    n.cut(2, 3, 7);
    n.settle(7);
    assert_eq!(f(&n), "- - - (0,0,0,0,4)");
    let l: Vec<String> = n
        .log
        .iter()
        .map(|(i, p)| {
            format!(
                "{} {}",
                i + 1,
                match p {
                    Packet::Upd(_, h) => height_text(Some(*h)),
                    Packet::Clr(_, t, o) => format!("C({t},{o})"),
                    Packet::Qry(_) => "Q".into(),
                }
            )
        })
        .collect();
    assert_eq!(
        l,
        ["3 (7,3,0,0,3)", "2 (7,3,0,-1,2)", "1 (7,3,1,0,1)", "2 (7,3,1,-1,2)", "3 C(7,3)", "2 C(7,3)", "1 C(7,3)"]
    );
}
fn two_levels() -> String {
    format!(
        "node 2 links 1,3 dests 4; 1 up 1; 1 up 3; 2 need 4; 3 from 3 {}; 4 from 1 {}; 8 from 3 {}",
        u(0, 0, 0, 1, 3),
        u(7, 9, 1, 0, 1),
        u(7, 9, 1, -1, 3)
    )
}
#[test]
fn levels_above_all_others() {
    let base = format!("send {Q}; send {}; send {}", u(0, 0, 0, 2, 2), u(8, 2, 0, 0, 2));
    assert_eq!(run(&two_levels()), base);
    assert_eq!(
        run(&(two_levels() + &format!("; 9 from 1 {}; 9 from 3 {}", u(9, 1, 0, 0, 1), c(7, 9)))),
        format!("{base}; send {}", u(10, 2, 0, 0, 2))
    );
    assert_eq!(
        run(&(two_levels() + &format!("; 9 from 3 {}; 9 show", c(7, 9)))),
        format!("{base}; to 4 height - flag 0 hop -; via 1 - none; via 3 - none")
    );
}
#[test]
fn a_link_lost_after_an_update() {
    assert!(run(&format!(
        "node 3 links 2,4 dests 4; 1 up 2; 1 up 4; 2 from 2 {Q}; 3 from 2 {}; 3 down 4",
        u(7, 9, 0, 0, 2)
    ))
    .ends_with(&format!("send {}", u(8, 3, 0, 0, 3))))
}
#[test]
fn the_greatest_delta() {
    assert_eq!(
        run(&format!("node 2 links 3 dests 4; 1 up 3; 2 need 4; 3 from 3 {}; 3 show", u(0, 0, 0, 1 << 30, 3))),
        format!("send {Q}; to 4 height - flag 0 hop 3; via 3 (0,0,0,1073741824,3) down")
    )
}
#[test]
fn a_query_is_answered_once_a_link() {
    assert_eq!(
        run(&(routed() + &format!("; 4 from 2 {Q}; 5 down 2; 6 up 2; 6 from 2 {Q}"))),
        format!("send {0}; send {0}", u(0, 0, 0, 1, 3))
    )
}
#[test]
fn errors_of_packets() {
    let x = |h: &str| run(&format!("node 3 links 2 dests 4; 1 from 2 {h}"));
    let long = format!("{Q}00");
    let mut y = u(0, 0, 0, 1, 3);
    y.replace_range(42..44, "01");
    assert_eq!(
        (x("-"), x("02"), x(&Q[..14]), x(&long), x(&y)),
        ("bad 1".into(), "bad 1".into(), "bad 1".into(), "bad 2".into(), "bad 5".into())
    );
    assert_eq!(x(&u(0, 0, 0, -1, 3)), "bad 6");
}
#[test]
fn queries_go_over_a_new_link() {
    assert_eq!(
        run("node 3 links 2,4 dests 5,4; 1 up 2; 1 need 5; 1 need 4; 2 up 4"),
        format!("send 0101000000000005; send {Q}; send {}; send 0101000000000005", u(0, 0, 0, 1, 3))
    )
}
