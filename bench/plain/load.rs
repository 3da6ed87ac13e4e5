//! The frames of the load generator: docs/FORMATS.md, 'The load generator'.

pub struct Draws {
    state: u64,
    step: u64,
}

const MULTIPLIER: u64 = 6_364_136_223_846_793_005;

fn word(state: u64) -> u32 {
    (((state >> 18 ^ state) >> 27) as u32).rotate_right((state >> 59) as u32)
}

impl Draws {
    pub fn new(number: u32) -> Draws {
        let mut state = u64::from(number);
        let mut next = || {
            state = state.wrapping_mul(MULTIPLIER).wrapping_add(11_634_580_027_462_260_723);
            u64::from(word(state))
        };
        let (first, second, third, last) = (next(), next(), next(), next());
        let step = (third | last << 32) | 1;
        let mut draws = Draws { state: (first | second << 32).wrapping_add(step), step };
        draws.draw(1);
        draws
    }

    fn draw(&mut self, bound: u32) -> u32 {
        let before = self.state;
        self.state = before.wrapping_mul(MULTIPLIER).wrapping_add(self.step);
        word(before) % bound
    }
}

type Send<'s> = &'s mut dyn FnMut(u32, String);

pub fn send_all(draws: &mut Draws, send: Send) {
    send_network(draws, send);
    send_policies(draws, send);
    for _ in 0..1000 {
        send_change(draws, send);
    }
}

fn send_network(draws: &mut Draws, send: Send) {
    for i in 1..=200 {
        send(1000, format!(r#"{{"attributes":["g{}","h{}"],"name":"u{i}"}}"#, draws.draw(8), draws.draw(8)));
    }
    for i in 1..=40 {
        send(1010, format!(r#"{{"attributes":["c{}"],"name":"s{i}"}}"#, draws.draw(4)));
    }
    for i in 1..=12 {
        let (zone, cost, avoided) = (draws.draw(3), draws.draw(100), draws.draw(6) == 0);
        send(1020, format!(r#"{{"attributes":["e{zone}"],"cost":{cost},"name":"r{i}","no_traversal":{avoided}}}"#));
        send(1023, format!(r#"{{"name":"r{i}"}}"#));
    }
    for i in 1..=30 {
        let (a, b, cost) = (1 + draws.draw(12), 1 + draws.draw(12), 1 + draws.draw(100));
        send(1200, format!(r#"{{"a":"r{a}","b":"r{b}","cost":{cost},"name":"l{i}"}}"#));
    }
}

fn send_policies(draws: &mut Draws, send: Send) {
    for i in 1..=20 {
        let kind = if draws.draw(4) == 0 { "Bind" } else { "Dial" };
        let semantic = if draws.draw(2) == 0 { "AnyOf" } else { "AllOf" };
        let roles = format!(r##""identity_roles":["#g{}","#h{}"],"name":"d{i}""##, draws.draw(8), draws.draw(8));
        send(1100, format!(r##"{{{roles},"semantic":"{semantic}","service_roles":["#c{}"],"type":"{kind}"}}"##, draws.draw(4)));
    }
    for i in 1..=6 {
        let (group, zone) = (draws.draw(8), draws.draw(3));
        send(1110, format!(r##"{{"identity_roles":["#g{group}"],"name":"e{i}","router_roles":["#e{zone}"],"semantic":"AnyOf"}}"##));
    }
    for i in 1..=4 {
        send(1120, format!(r##"{{"name":"f{i}","router_roles":["#all"],"semantic":"AnyOf","service_roles":["#c{}"]}}"##, draws.draw(4)));
    }
    for _ in 0..40 {
        let (service, router, cost) = (1 + draws.draw(40), 1 + draws.draw(12), draws.draw(200));
        send(1300, format!(r#"{{"cost":{cost},"router":"r{router}","service":"s{service}"}}"#));
    }
}

fn send_change(draws: &mut Draws, send: Send) {
    let which = draws.draw(10);
    match which {
        0..=5 => send(1400, format!(r#"{{"identity":"u{}","service":"s{}"}}"#, 1 + draws.draw(200), 1 + draws.draw(40))),
        6 => {
            let (name, group, home) = (1 + draws.draw(200), draws.draw(8), draws.draw(8));
            send(1001, format!(r#"{{"attributes":["g{group}","h{home}"],"name":"u{name}"}}"#));
        }
        7 => {
            let (link, cost) = (1 + draws.draw(30), 1 + draws.draw(100));
            send(1201, format!(r#"{{"cost":{cost},"link":"l{link}"}}"#));
        }
        _ => send(if which == 8 { 1024 } else { 1023 }, format!(r#"{{"name":"r{}"}}"#, 1 + draws.draw(12))),
    }
}
