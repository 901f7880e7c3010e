//! A run: made of a script, with names looked up, and then bit by bit.

use crate::controller::Controller;
use crate::filters::Filters;
use crate::frame::RECESSIVE;
use crate::gateway::Gateway;
use crate::json::Read;
use crate::member::{Member, Source};
use crate::route::Route;
use crate::script::{ControllerEntry, FaultEntry, RouteEntry, Script, SegmentEntry, TalkerEntry};
use crate::segment::{Disturbance, Segment};
use crate::text::Text;
use std::collections::{BTreeMap, HashMap};
use std::io::{Result, Write};

pub struct Run {
    bits: u32,
    segments: Vec<Segment>,
    gateway: Gateway,
}

/// Where the nodes of a script stand: their segment, and their place in it.
type Places = HashMap<String, (usize, usize)>;
type Disturbances = Vec<BTreeMap<u32, Disturbance>>;

fn place_of<T>(entries: &[T], name: &str, name_of: impl Fn(&T) -> &String) -> Read<usize> {
    entries.iter().position(|entry| name_of(entry) == name).ok_or_else(|| format!("nothing has the name {name}"))
}

/// The nodes of each segment, its talkers and then its controllers.
fn members(segments: Vec<SegmentEntry>, controllers: &[ControllerEntry]) -> Read<Vec<(String, Vec<Member>)>> {
    let mut lines = Vec::new();
    for segment in segments {
        let talker = |talker: TalkerEntry| {
            Member::new(talker.name, talker.on, Source::Talker { frames: talker.frames, next: 0 })
        };
        lines.push((segment.name, segment.talkers.into_iter().map(talker).collect::<Vec<_>>()));
    }
    for (place, controller) in controllers.iter().enumerate() {
        let segment = place_of(&lines, &controller.segment, |line| &line.0)?;
        lines[segment].1.push(Member::new(controller.name.clone(), controller.on, Source::Controller(place)));
    }
    Ok(lines)
}

fn places(lines: &[(String, Vec<Member>)]) -> Places {
    let mut places = Places::new();
    for (segment, line) in lines.iter().enumerate() {
        for (place, member) in line.1.iter().enumerate() {
            places.insert(member.name.clone(), (segment, place));
        }
    }
    places
}

fn disturbances(faults: &[FaultEntry], lines: &[(String, Vec<Member>)]) -> Read<Disturbances> {
    let places = places(lines);
    let mut all: Disturbances = lines.iter().map(|_| BTreeMap::new()).collect();
    for fault in faults {
        if let Some(node) = &fault.node {
            let (segment, place) = places.get(node).ok_or_else(|| format!("no node has the name {node}"))?;
            all[*segment].entry(fault.bit).or_default().turned_over |= 1 << place;
        } else {
            let segment = place_of(lines, &fault.segment, |line| &line.0)?;
            all[segment].entry(fault.bit).or_default().level = Some(fault.level == RECESSIVE);
        }
    }
    Ok(all)
}

fn routes(entries: Vec<RouteEntry>, controllers: &[ControllerEntry], version: u32) -> Read<Vec<Route>> {
    let mut routes = Vec::new();
    for (place, entry) in entries.into_iter().enumerate() {
        let source = place_of(controllers, &entry.from, |controller| &controller.name)?;
        let target = place_of(controllers, &entry.to, |controller| &controller.name)?;
        let mut route = Route::new(place, entry.name, (source, entry.fifo, target));
        if version == 2 {
            route.rewrites(entry.rewrites);
        }
        routes.push(route);
    }
    Ok(routes)
}

impl Run {
    pub fn new(script: Script) -> Read<Run> {
        let lines = members(script.segments, &script.controllers)?;
        let disturbances = disturbances(&script.faults, &lines)?;
        let mut routes = routes(script.routes, &script.controllers, script.version)?;
        for (name, abort) in script.aborts {
            let route = place_of(&routes, &name, |route: &Route| &route.name)?;
            routes[route].abort_later(abort);
        }
        let controllers = script.controllers.into_iter();
        let controllers = controllers.map(|entry| Controller::new(Filters::new(entry.banks), entry.goes_by_requests));
        let gateway = Gateway { controllers: controllers.collect(), routes };
        let mut segments = Vec::new();
        for ((name, members), faults) in lines.into_iter().zip(disturbances) {
            segments.push(Segment::new(name, members, faults.into_iter().collect()));
        }
        Ok(Run { bits: script.bits, segments, gateway })
    }

    pub fn make(&mut self, turn: u32) {
        let mut left = turn;
        for bit in 0..self.bits {
            for segment in &mut self.segments {
                segment.make_bit(bit, &mut self.gateway);
            }
            left -= 1;
            if left == 0 {
                left = turn;
                self.gateway.turn();
            }
        }
        for segment in &mut self.segments {
            segment.tell_end(self.bits);
        }
    }

    pub fn print(&self, output: &mut impl Write) -> Result<()> {
        for segment in &self.segments {
            output.write_all(segment.text())?;
        }
        let mut text = Text::default();
        for route in &self.gateway.routes {
            route.tell(&self.gateway.controllers, &mut text);
        }
        output.write_all(text.bytes())?;
        output.flush()
    }
}
