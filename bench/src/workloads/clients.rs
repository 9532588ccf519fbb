//! Clients that run transactions side by side and retry when they wait.

use super::maker::Maker;
use crate::records::{Answer, Request};
use crate::store::Store;

/// Each transaction reads and writes that many random items, and commits.
pub struct Clients {
    pub count: usize,
    pub items: u16,
    pub reads: usize,
    pub writes: usize,
}

#[derive(Clone, Copy)]
enum Client {
    Idle,
    Running { t: u16, done: usize, waits: bool },
}

impl Clients {
    pub fn run<S: Store>(&self, maker: &mut Maker<S>) {
        let mut clients = vec![Client::Idle; self.count];
        while !maker.is_full() {
            let turn = maker.pick(self.count);
            clients[turn] = self.step(maker, clients[turn]);
        }
    }

    fn step<S: Store>(&self, maker: &mut Maker<S>, client: Client) -> Client {
        let Client::Running { t, done, waits } = client else {
            let t = maker.begin();
            return Client::Running {
                t,
                done: 0,
                waits: false,
            };
        };
        let request = if waits {
            Request::Retry { t }
        } else {
            self.request(maker, t, done)
        };
        match maker.ask(request) {
            Ok(Answer::Committed { .. } | Answer::Deadlock { .. }) => Client::Idle,
            Ok(Answer::Wait { .. }) => Client::Running {
                t,
                done,
                waits: true,
            },
            _ => Client::Running {
                t,
                done: done + 1,
                waits: false,
            },
        }
    }

    fn request<S: Store>(&self, maker: &mut Maker<S>, t: u16, done: usize) -> Request {
        if done >= self.reads + self.writes {
            return Request::Commit { t };
        }
        let item = maker.below(self.items);
        if done < self.reads {
            return Request::Read { t, item };
        }
        let value = maker.value();
        Request::Write { t, item, value }
    }
}
