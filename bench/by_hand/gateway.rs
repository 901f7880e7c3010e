//! The controllers and routes of a run, beside its segments.

use crate::controller::Controller;
use crate::route::Route;

pub struct Gateway {
    pub controllers: Vec<Controller>,
    pub routes: Vec<Route>,
}

impl Gateway {
    pub fn turn(&mut self) {
        for route in &mut self.routes {
            route.turn(&mut self.controllers);
        }
    }
}
