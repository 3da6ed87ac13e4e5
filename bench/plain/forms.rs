//! The form of each command: its fields in their order, and what is refused of a body.

use crate::json::Json;
use std::borrow::Cow;

#[derive(Clone, Copy)]
pub enum Kind {
    Name,
    Instance,
    Truth,
    Number(u64, u64),
    Word(&'static [&'static str]),
    Names,
    Roles,
    Numbers(usize),
    Potentials,
}

use Kind::{Instance, Name, Names, Number, Numbers, Potentials, Roles, Truth, Word};

pub struct Field {
    pub word: &'static str,
    kind: Kind,
    may_lack: bool,
}

pub enum About {
    Nothing,
    Field(&'static str),
    Kind(&'static str),
    Ref(&'static str, String),
    Reason(&'static str, &'static str),
}

pub struct Refusal {
    pub code: u32,
    pub name: &'static str,
    pub about: About,
}

pub fn refused(code: u32, name: &'static str) -> Refusal {
    Refusal { code, name, about: About::Nothing }
}

pub fn unknown(field: &'static str) -> Refusal {
    Refusal { code: 21, name: "Unknown", about: About::Field(field) }
}

fn bad_body(field: &'static str, reason: &'static str) -> Refusal {
    Refusal { code: 11, name: "BadBody", about: About::Reason(field, reason) }
}

const fn field(word: &'static str, kind: Kind) -> Field {
    Field { word, kind, may_lack: false }
}

const fn may(word: &'static str, kind: Kind) -> Field {
    Field { word, kind, may_lack: true }
}

const COST: Kind = Number(0, 65_535);
const LINK_COST: Kind = Number(1, 65_535);
const LATENCY: Kind = Number(0, 60_000);
const NUMBER: Kind = Number(1, u32::MAX as u64);
const TOTAL: Kind = Number(0, u32::MAX as u64);
const SEMANTIC: Field = field("semantic", Word(&["AnyOf", "AllOf"]));
pub const PRECEDENCES: &[&str] = &["required", "default", "failed"];

const NAME: &[Field] = &[field("name", Name)];
const MADE: &[Field] = &[field("name", Name), may("attributes", Names)];
const CHANGED: &[Field] = &[field("name", Name), field("attributes", Names)];
const ROUTER_MADE: &[Field] = &[field("name", Name), may("attributes", Names), may("cost", COST), may("no_traversal", Truth)];
const ROUTER_CHANGED: &[Field] = &[field("name", Name), field("attributes", Names), field("cost", COST), field("no_traversal", Truth)];
const SERVICE_POLICY: &[Field] =
    &[field("name", Name), field("type", Word(&["Dial", "Bind"])), SEMANTIC, field("identity_roles", Roles), field("service_roles", Roles)];
const EDGE_ROUTER_POLICY: &[Field] = &[field("name", Name), SEMANTIC, field("identity_roles", Roles), field("router_roles", Roles)];
const SERVICE_EDGE_ROUTER_POLICY: &[Field] = &[field("name", Name), SEMANTIC, field("service_roles", Roles), field("router_roles", Roles)];
const LINK_MADE: &[Field] =
    &[field("name", Name), field("a", Name), field("b", Name), may("cost", LINK_COST), may("latency_a", LATENCY), may("latency_b", LATENCY)];
const LINK: &[Field] = &[field("link", Name)];
const LINK_PRICED: &[Field] = &[field("link", Name), field("cost", LINK_COST)];
const LATENCY_TOLD: &[Field] = &[field("link", Name), field("router", Name), field("latency", LATENCY)];
const STATE_TOLD: &[Field] = &[field("link", Name), field("router", Name), field("up", Truth)];
const LEAST_COST: &[Field] = &[field("cost", LINK_COST)];
const OFFER: &[Field] = &[
    field("service", Name), field("router", Name), may("instance", Instance), may("host", Name), may("cost", COST), may("precedence", Word(PRECEDENCES)),
];
const OFFER_CHANGED: &[Field] = &[field("no", NUMBER), field("cost", COST), field("precedence", Word(PRECEDENCES))];
const NO: &[Field] = &[field("no", NUMBER)];
const REQUEST: &[Field] = &[field("identity", Name), field("service", Name), may("ingress", Name), may("instance", Instance)];
const CLAIM: &[Field] = &[
    field("identity", Name), field("service", Name), may("ingress", Name), may("instance", Instance), field("chosen", Name), field("links", Numbers(255)),
    field("potentials", Potentials), field("routers", Numbers(256)), field("terminator", NUMBER), field("total", TOTAL),
];
const IDENTITY: &[Field] = &[field("identity", Name)];

/// The fields of a command; Hello's body is not read.
pub fn form(content: u32) -> Option<&'static [Field]> {
    Some(match content {
        1000 | 1010 => MADE,
        1001 | 1011 => CHANGED,
        1020 => ROUTER_MADE,
        1021 => ROUTER_CHANGED,
        1002 | 1012 | 1022 | 1023 | 1024 | 1102 | 1112 | 1122 => NAME,
        1100 | 1101 => SERVICE_POLICY,
        1110 | 1111 => EDGE_ROUTER_POLICY,
        1120 | 1121 => SERVICE_EDGE_ROUTER_POLICY,
        1200 => LINK_MADE,
        1201 => LINK_PRICED,
        1202 => LATENCY_TOLD,
        1203 => STATE_TOLD,
        1204 => LINK,
        1210 => LEAST_COST,
        1300 => OFFER,
        1301 => OFFER_CHANGED,
        1302 | 1401 | 1503 => NO,
        1400 | 1402 => REQUEST,
        1403 => CLAIM,
        1500 | 1501 => IDENTITY,
        1502 | 1510 => &[],
        _ => return None,
    })
}

/// The values of a command's fields, in the order of its form.
pub struct Fields<'b, 'a>([Option<&'b Json<'a>>; 10]);

impl<'b, 'a> Fields<'b, 'a> {
    pub fn has(&self, at: usize) -> bool {
        self.0[at].is_some()
    }

    pub fn text(&self, at: usize) -> &'b str {
        self.0[at].and_then(Json::text).unwrap_or("")
    }

    pub fn number(&self, at: usize) -> Option<u32> {
        self.0[at].and_then(Json::number).map(|it| it as u32)
    }

    pub fn is_true(&self, at: usize) -> bool {
        matches!(self.0[at], Some(Json::Truth(true)))
    }

    pub fn list(&self, at: usize) -> &'b [Json<'a>] {
        self.0[at].and_then(Json::list).unwrap_or(&[])
    }

    pub fn texts(&self, at: usize) -> impl Iterator<Item = &'b str> + use<'a, 'b> {
        let list = self.list(at);
        list.iter().map(|it| it.text().unwrap_or(""))
    }
}

pub fn read<'b, 'a>(form: &[Field], members: Option<&'b [(Cow<'a, str>, Json<'a>)]>) -> Result<Fields<'b, 'a>, Refusal> {
    let members = members.ok_or_else(|| bad_body("", "NotObject"))?;
    let mut fields = [None; 10];
    for (at, field) in form.iter().enumerate() {
        fields[at] = members.iter().rev().find(|(key, _)| key == field.word).map(|(_, value)| value);
        match fields[at] {
            None if !field.may_lack => return Err(bad_body(field.word, "Missing")),
            Some(value) if !takes(field.kind, value) => return Err(bad_body(field.word, "WrongKind")),
            _ => {}
        }
    }
    let is_known = |key: &str| form.iter().any(|field| field.word == key);
    if members.iter().all(|(key, _)| is_known(key)) { Ok(Fields(fields)) } else { Err(bad_body("", "Unknown")) }
}

pub fn is_name(text: &str) -> bool {
    let is_letter = |byte: u8| byte.is_ascii_alphanumeric() || matches!(byte, b'.' | b'_' | b'-');
    (1..=64).contains(&text.len()) && text.bytes().all(is_letter)
}

fn takes(kind: Kind, value: &Json) -> bool {
    let is_within = |value: &Json, least, most| value.number().is_some_and(|it| (least..=most).contains(&it));
    match kind {
        Name => value.text().is_some_and(is_name),
        Instance => value.text().is_some_and(|text| text.is_empty() || is_name(text)),
        Truth => matches!(value, Json::Truth(_)),
        Number(least, most) => is_within(value, least, most),
        Word(words) => value.text().is_some_and(|text| words.contains(&text)),
        Names => value.list().is_some_and(|items| items.len() <= 64 && items.iter().all(|it| takes(Name, it))),
        Roles => value.list().is_some_and(are_roles),
        Numbers(most) => value.list().is_some_and(|items| items.len() <= most && items.iter().all(|it| takes(NUMBER, it))),
        Potentials => value.list().is_some_and(|items| items.len() <= 256 && items.iter().all(|it| potential(it).is_some())),
    }
}

fn are_roles(items: &[Json]) -> bool {
    let is_role = |item: &Json| item.text().is_some_and(|text| text.starts_with(['#', '@']) && is_name(&text[1..]));
    let is_all = |item: &Json| item.text() == Some("#all");
    items.len() <= 64 && items.iter().all(is_role) && (!items.iter().any(is_all) || items.iter().all(is_all))
}

/// The router of a potential, and its values.
pub fn potential<'b>(item: &'b Json) -> Option<(u32, &'b [Json<'b>])> {
    let Json::Object(members) = item else { return None };
    let value = |word: &str| members.iter().rev().find(|(key, _)| key == word).map(|(_, value)| value);
    let values = value("values")?.list()?;
    let is_value = |it: &Json| matches!(it, Json::Null) || takes(TOTAL, it);
    let holds = members.iter().all(|(key, _)| key == "router" || key == "values") && takes(NUMBER, value("router")?);
    (holds && values.len() <= 256 && values.iter().all(is_value)).then(|| (value("router").and_then(Json::number).unwrap_or(0) as u32, values))
}
