//! Scripts as they are read, with names that are not looked up yet. What `bxgate` would refuse is not looked for.

use crate::filters::Bank;
use crate::frame::Frame;
use crate::json::{Json, Read};
use crate::route::{Abort, Rewrite};

#[derive(Default)]
pub struct Script {
    pub version: u32,
    pub bits: u32,
    pub segments: Vec<SegmentEntry>,
    pub controllers: Vec<ControllerEntry>,
    pub routes: Vec<RouteEntry>,
    pub faults: Vec<FaultEntry>,
    pub aborts: Vec<(String, Abort)>,
}

#[derive(Default)]
pub struct SegmentEntry {
    pub name: String,
    pub talkers: Vec<TalkerEntry>,
}

#[derive(Default)]
pub struct TalkerEntry {
    pub name: String,
    pub on: u32,
    pub frames: Vec<Frame>,
}

pub struct ControllerEntry {
    pub name: String,
    pub segment: String,
    pub on: u32,
    pub goes_by_requests: bool,
    pub banks: Vec<Bank>,
}

#[derive(Default)]
pub struct RouteEntry {
    pub name: String,
    pub from: String,
    pub fifo: usize,
    pub to: String,
    pub rewrites: Vec<Rewrite>,
}

/// A fault at a node, or on a segment's line where there is no node.
#[derive(Default)]
pub struct FaultEntry {
    pub node: Option<String>,
    pub segment: String,
    pub bit: u32,
    pub level: bool,
}

fn name(json: &mut Json) -> Read<String> {
    Ok(json.string()?.into_owned())
}

impl Script {
    pub fn read(text: &str) -> Read<Script> {
        let mut json = Json::new(text);
        let mut script = Script::default();
        json.object(|json, field| {
            match field {
                "version" => script.version = json.number()?,
                "bits" => script.bits = json.number()?,
                "segments" => script.segments = json.list(segment)?,
                "controllers" => script.controllers = json.list(controller)?,
                "routes" => script.routes = json.list(route)?,
                "faults" => script.faults = json.list(fault)?,
                "aborts" => script.aborts = json.list(abort)?,
                _ => json.skip()?,
            }
            Ok(())
        })?;
        json.end()?;
        Ok(script)
    }
}

fn segment(json: &mut Json) -> Read<SegmentEntry> {
    let mut entry = SegmentEntry::default();
    json.object(|json, field| {
        match field {
            "name" => entry.name = name(json)?,
            "talkers" => entry.talkers = json.list(talker)?,
            _ => json.skip()?,
        }
        Ok(())
    })?;
    Ok(entry)
}

fn talker(json: &mut Json) -> Read<TalkerEntry> {
    let mut entry = TalkerEntry::default();
    json.object(|json, field| {
        match field {
            "name" => entry.name = name(json)?,
            "on" => entry.on = json.number()?,
            "frames" => entry.frames = json.list(frame)?,
            _ => json.skip()?,
        }
        Ok(())
    })?;
    Ok(entry)
}

fn frame(json: &mut Json) -> Read<Frame> {
    let mut frame = Frame::default();
    let (mut count, mut code) = (None, 0);
    json.object(|json, field| {
        match field {
            "id" => frame.id = json.number()?,
            "ext" => frame.extended = json.truth()?,
            "data" => count = Some(data(json, &mut frame.bytes)?),
            "remote" => code = json.number()?,
            _ => json.skip()?,
        }
        Ok(())
    })?;
    frame.remote = count.is_none();
    frame.length = count.unwrap_or(code) as u8;
    Ok(frame)
}

/// Reads the bytes of a frame in place, and counts them.
fn data(json: &mut Json, bytes: &mut [u8; 8]) -> Read<u32> {
    *bytes = [0; 8];
    let mut count = 0;
    json.list(|json| {
        let byte = json.number()?;
        *bytes.get_mut(count).ok_or("more than 8 bytes")? = byte as u8;
        count += 1;
        Ok(())
    })?;
    Ok(count as u32)
}

fn controller(json: &mut Json) -> Read<ControllerEntry> {
    let (mut entry_name, mut segment, mut on) = (String::new(), String::new(), 0);
    let (mut goes_by_requests, mut banks) = (true, Vec::new());
    json.object(|json, field| {
        match field {
            "name" => entry_name = name(json)?,
            "segment" => segment = name(json)?,
            "on" => on = json.number()?,
            "txfp" => goes_by_requests = json.truth()?,
            "banks" => banks = json.list(bank)?,
            _ => json.skip()?,
        }
        Ok(())
    })?;
    Ok(ControllerEntry { name: entry_name, segment, on, goes_by_requests, banks })
}

fn bank(json: &mut Json) -> Read<Bank> {
    let mut bank = Bank { number: 0, is_wide: false, is_list: false, fifo: 0, is_active: false, r1: 0, r2: 0 };
    json.object(|json, field| {
        match field {
            "bank" => bank.number = json.number()? as u8,
            "scale" => bank.is_wide = json.number()? == 32,
            "mode" => bank.is_list = json.string()? == "list",
            "fifo" => bank.fifo = json.number()? as u8,
            "active" => bank.is_active = json.truth()?,
            "r1" => bank.r1 = json.number()?,
            "r2" => bank.r2 = json.number()?,
            _ => json.skip()?,
        }
        Ok(())
    })?;
    Ok(bank)
}

fn route(json: &mut Json) -> Read<RouteEntry> {
    let mut entry = RouteEntry::default();
    json.object(|json, field| {
        match field {
            "name" => entry.name = name(json)?,
            "from" => entry.from = name(json)?,
            "fifo" => entry.fifo = json.number()? as usize,
            "to" => entry.to = name(json)?,
            "rewrite" => entry.rewrites = json.list(rewrite)?,
            _ => json.skip()?,
        }
        Ok(())
    })?;
    Ok(entry)
}

fn rewrite(json: &mut Json) -> Read<Rewrite> {
    let mut entry = Rewrite { id: 0, extended: false, new_id: 0, new_extended: false };
    json.object(|json, field| {
        match field {
            "id" => entry.id = json.number()?,
            "ext" => entry.extended = json.truth()?,
            "new_id" => entry.new_id = json.number()?,
            "new_ext" => entry.new_extended = json.truth()?,
            _ => json.skip()?,
        }
        Ok(())
    })?;
    Ok(entry)
}

fn fault(json: &mut Json) -> Read<FaultEntry> {
    let mut entry = FaultEntry::default();
    json.object(|json, field| {
        match field {
            "node" => entry.node = Some(name(json)?),
            "segment" => entry.segment = name(json)?,
            "bit" => entry.bit = json.number()?,
            "level" => entry.level = json.number()? == 1,
            _ => json.skip()?,
        }
        Ok(())
    })?;
    Ok(entry)
}

fn abort(json: &mut Json) -> Read<(String, Abort)> {
    let (mut route, mut abort) = (String::new(), Abort { number: 0, turn: 0 });
    json.object(|json, field| {
        match field {
            "route" => route = name(json)?,
            "number" => abort.number = json.number()?,
            "turn" => abort.turn = json.number()?,
            _ => json.skip()?,
        }
        Ok(())
    })?;
    Ok((route, abort))
}
