//! A worked example of a lane that is full.

use super::*;
use crate::In;
#[test]
fn a_full_lane_cuts_the_neighbour() {
    let mut s = Sim::new(&[(1, 2), (3, 1)], &[8, 4, 5, 6, 7], 32).unwrap();
    let life = Life { own: 5, peer: 9 };
    let item = |seat, what| Item { now: 0, seat, what };
    (4..=8).for_each(|d| s.need(0, d).unwrap());
    s.into_lane(0, item(0, What::Up(life))).unwrap();
    while s.turn(0).is_ok() {}
    while s.out[0].len() < 254 {
        s.out[0].push(Cargo::Cut(life));
    }
    s.into_lane(0, item(1, What::Up(Life { own: 1, peer: 1 }))).unwrap();
    s.turn(0).unwrap();
    let qry = |l: &mut Fifo<Cargo>| {
        l.items()
            .iter()
            .rev()
            .map_while(|c| if let Cargo::Packet(_, Packet::Qry(d)) = c { Some(*d) } else { None })
            .collect::<Vec<_>>()
    };
    assert_eq!((qry(&mut s.out[0]), s.out[0].len(), qry(&mut s.out[1])), (vec![5, 4], 256, vec![8, 7, 6, 5, 4]));
    let n = &s.nodes[0];
    assert_eq!((n.is_current, n.is_pending, n.inputs.len()), (2, 1, 8));
    assert!(matches!(n.inputs[7].1, In::Down(0)));
    s.into_lane(0, item(0, What::Packet(life, Packet::Qry(4)))).unwrap();
    s.turn(0).unwrap();
    assert_eq!((s.nodes[0].inputs.len(), s.taken(0, life).len()), (8, 0));
}
