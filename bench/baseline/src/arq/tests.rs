//! Worked examples of a link end.

use super::*;
const Q: Packet = Packet::Qry(4);
fn hello(life: u64, heard: u64) -> Frame {
    Frame { life, heard, body: Body::Hello }
}
fn data(number: u64) -> Frame {
    Frame { life: 9, heard: 5, body: Body::Data { number, count: 0, packet: Packet::Qry(number as u32) } }
}
/// Own 5 bound to 9, `Up` polled, all HELLOs sent.
fn bound(peer: Id, own: u64, other: u64, window: u32) -> LinkEnd {
    let mut e = LinkEnd::new(peer, window);
    e.open(own);
    assert_eq!(e.on_frame(&hello(other, own), 0), Accepted);
    assert!(matches!(e.events.pop(), Some(Event::Up(l)) if l == Life { own, peer: other }));
    while e.poll_transmit(0).is_some() {}
    e
}
fn delivered(e: &mut LinkEnd) -> Vec<u32> {
    std::iter::from_fn(|| e.events.pop())
        .map(|x| match x {
            Event::Deliver(_, p) => p.dest(),
            x => panic!("{x:?}"),
        })
        .collect()
}
#[test]
fn handshake() {
    let (mut a, mut b) = (LinkEnd::new(2, 32), LinkEnd::new(1, 32));
    a.open(5);
    b.open(9);
    let f = a.poll_transmit(0).unwrap();
    assert_eq!((f.life, f.heard), (5, 0));
    b.on_frame(&f, 0);
    let f = b.poll_transmit(0).unwrap();
    assert_eq!((f.life, f.heard), (9, 5));
    a.on_frame(&f, 0);
    assert!(matches!(a.events.pop(), Some(Event::Up(Life { own: 5, peer: 9 }))));
    let f = a.poll_transmit(0).unwrap();
    assert_eq!((f.life, f.heard), (5, 9));
    b.on_frame(&f, 0);
    assert!(matches!(b.events.pop(), Some(Event::Up(Life { own: 9, peer: 5 }))));
}
#[test]
fn packets_ahead_are_held() {
    for (w, all) in [(1, vec![1, 2]), (32, vec![1, 2, 3])] {
        let mut e = bound(2, 5, 9, w);
        let v: Vec<Verdict> = [1, 3, 2, 2].iter().map(|&n| e.on_frame(&data(n), 0)).collect();
        assert_eq!(v, [Accepted, Ahead, Accepted, Repeated]);
        assert_eq!(delivered(&mut e), all);
    }
}
#[test]
fn a_new_life_of_the_peer() {
    let mut e = bound(2, 5, 9, 32);
    assert_eq!(e.on_frame(&hello(17, 0), 0), Accepted);
    assert!(matches!(e.events.pop(), Some(Event::Down(Life { own: 5, peer: 9 }, Reason::NewPeer))));
    e.open(6);
    assert_eq!(e.on_frame(&data(1), 0), Stale);
    assert!(e.events.is_empty());
}
#[test]
fn eight_tries_then_silent() {
    let mut e = bound(2, 5, 9, 32);
    e.submit(Life { own: 5, peer: 9 }, Q);
    let (mut d, mut h) = (vec![], vec![]);
    for now in 0..40 {
        e.on_tick(now);
        while let Some(f) = e.poll_transmit(now) {
            if matches!(f.body, Body::Hello) {
                assert!(!d.contains(&now));
                h.push(now)
            } else {
                d.push(now)
            }
        }
    }
    assert_eq!((d, h), ((0..8).map(|x| 5 * x).collect(), vec![10, 20, 30]));
    assert!(e.events.is_empty());
    e.on_tick(40);
    assert!(matches!(e.events.pop(), Some(Event::Down(_, Reason::Silent))));
}
#[test]
fn a_lost_packet_is_sent_again() {
    let (mut a, mut b) = (bound(2, 5, 9, 32), bound(1, 9, 5, 32));
    (1..=3).for_each(|n| a.submit(Life { own: 5, peer: 9 }, Packet::Qry(n)));
    let due = |e: &mut LinkEnd, now| std::iter::from_fn(|| e.poll_transmit(now)).collect::<Vec<_>>();
    let f = due(&mut a, 0);
    assert_eq!(f.len(), 3);
    assert_eq!((b.on_frame(&f[1], 0), b.on_frame(&f[2], 0)), (Ahead, Ahead));
    let k = due(&mut b, 0);
    assert!(k.len() == 1 && matches!(k[0].body, Body::Ack(0)));
    assert_eq!(a.on_frame(&k[0], 0), Repeated);
    assert!(due(&mut a, 4).is_empty());
    let f = due(&mut a, 5);
    let v: Vec<Verdict> = f.iter().map(|x| b.on_frame(x, 5)).collect();
    assert_eq!(v, [Accepted, Repeated, Repeated]);
    assert_eq!(delivered(&mut b), [1, 2, 3]);
    let k = due(&mut b, 5);
    assert!(k.len() == 1 && matches!(k[0].body, Body::Ack(3)));
    let mut c = bound(2, 5, 9, 32);
    assert_eq!((c.on_frame(&data(32), 0), c.on_frame(&data(33), 0), c.held_set.count_ones()), (Ahead, Ahead, 1));
}
#[test]
fn verdicts() {
    let alone = |f: Frame| bound(2, 5, 9, 32).on_frame(&f, 0);
    let h = crate::Height { tau: 0, oid: 0, r: 0, delta: 1, id: 3 };
    assert_eq!(
        alone(Frame { life: 9, heard: 5, body: Body::Data { number: 1, count: 0, packet: Packet::Upd(4, h) } }),
        Foreign
    );
    assert_eq!(alone(Frame { life: 9, heard: 5, body: Body::Ack(1) }), Foreign);
    assert_eq!(alone(hello(8, 5)), Stale);
    assert_eq!(alone(Frame { heard: 4, ..data(1) }), Stale);
    assert_eq!(alone(data(1 << 62)), Ahead);
    assert_eq!(alone(hello(1 << 62, 0)), Accepted);
    let mut e = bound(2, 5, 9, 32);
    (1..=31).for_each(|n| assert_eq!(e.on_frame(&data(n), 0), Accepted));
    assert_eq!(e.on_frame(&data(32), 0), Busy);
    e.events.pop();
    assert_eq!(e.on_frame(&data(32), 0), Accepted);
}
/// What no simulation reaches: the packet held first stays; an unbound end hears a life below `heard`.
#[test]
fn held_first_and_below_heard() {
    let mut e = bound(2, 5, 9, 32);
    e.on_frame(&data(2), 0);
    let mut f = data(2);
    f.body = Body::Data { number: 2, count: 0, packet: Packet::Qry(77) };
    assert_eq!(e.on_frame(&f, 0), Ahead);
    e.on_frame(&data(1), 0);
    assert_eq!(delivered(&mut e), [1, 2]);
    let mut e = LinkEnd::new(2, 32);
    e.open(5);
    assert_eq!(e.on_frame(&hello(9, 0), 0), Accepted);
    assert_eq!(
        (e.on_frame(&hello(8, 5), 0), e.on_frame(&hello(8, 0), 0), e.on_frame(&hello(9, 5), 0)),
        (Stale, Stale, Accepted)
    );
}
