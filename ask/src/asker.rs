//! Requests and their replies over a line: what is waited for, what is asked again, and what is learned first.
use crate::arguments::Options;
use crate::failure::{unwritable, Failure};
use crate::line::Line;
use crate::told::Teller;
use cruachvel::{Answer, Gateway, GroupNumber, Masking, Refusal, Request, REQUEST_ROOM};
use std::time::{Duration, Instant};

pub struct Asker {
    pub gateway: Gateway,
    line: Line,
    timeout: Duration,
    silence: Duration,
    gap: Duration,
    retries: u32,
    // Whether something may still be on the line: then a silence comes before the next request.
    unsettled: bool,
    // How many requests had no answer, which may come late.
    owed: u32,
}

/// Whether a request can be carried out twice without harm: where only the reply was lost, it was carried out already. A second group would be
/// made, a function run a second time, and bits that are inverted twice are as before.
pub fn is_repeatable(request: &Request) -> bool {
    !matches!(
        request,
        Request::MakeGroup(_)
            | Request::RunFunction(..)
            | Request::MaskVariable(_, Masking::Toggle | Masking::Xor, _)
            | Request::MaskGroup(_, Masking::Toggle | Masking::Xor, _)
    )
}

impl Asker {
    pub fn new(line: Line, gateway: Gateway, options: &Options) -> Asker {
        Asker {
            gateway,
            line,
            timeout: options.timeout,
            silence: options.silence,
            gap: options.gap,
            retries: options.retries,
            unsettled: true,
            owed: 0,
        }
    }

    /// Asks, and takes what was asked for from the answer.
    pub fn ask<T>(
        &mut self,
        teller: &mut Teller,
        request: &Request,
        take: impl Fn(Answer) -> Option<T>,
    ) -> Result<T, Failure> {
        let mut room = [0; REQUEST_ROOM];
        let packet = self.gateway.ask(request, &mut room).map_err(unwritable)?;
        let repeatable = is_repeatable(request);
        let tries = if repeatable { self.retries + 1 } else { 1 };
        self.settle()?;
        let mut number = 1;
        loop {
            self.send(packet)?;
            let failure = match self.hear(packet, request, &take)? {
                Ok(taken) => return Ok(taken),
                Err(Failure::Silent { milliseconds, .. }) => Failure::Silent {
                    tries: number,
                    milliseconds,
                    repeatable,
                },
                Err(failure) => failure,
            };
            self.unsettled = true;
            if number == tries {
                return Err(failure);
            }
            number += 1;
            let message = failure.message();
            let reason = message.split(", asked").next().unwrap_or_default();
            teller.note(&format!(
                "{}; asking again, {} of {}",
                reason, number, tries
            ));
        }
    }

    /// Asks for something that is only to be done.
    pub fn ask_done(&mut self, teller: &mut Teller, request: &Request) -> Result<(), Failure> {
        self.ask(teller, request, |answer| {
            matches!(answer, Answer::Done).then_some(())
        })
    }

    // What came in reply to a packet; the inner failures may be mended by asking again.
    fn hear<T>(
        &mut self,
        packet: &[u8],
        request: &Request,
        take: impl Fn(Answer) -> Option<T>,
    ) -> Result<Result<T, Failure>, Failure> {
        let received = self.line.receive(packet, self.timeout, self.silence);
        let reply = received.map_err(Failure::Broken)?;
        if reply.is_empty() {
            self.owed += 1;
            return Ok(Err(Failure::Silent {
                tries: 1,
                milliseconds: self.timeout.as_millis(),
                repeatable: true,
            }));
        }
        match self.gateway.hear(request, &reply) {
            Ok(Answer::Error(error)) => Err(Failure::Error(error)),
            Ok(answer) => Ok(take(answer).ok_or(Failure::Unfit(Refusal::ReplyUnfit, reply))),
            Err(refusal) => Ok(Err(Failure::Unfit(refusal, reply))),
        }
    }

    /// Sends by multicast, and waits for nothing.
    pub fn tell(&mut self, request: &Request) -> Result<(), Failure> {
        let mut room = [0; REQUEST_ROOM];
        let packet = self.gateway.ask(request, &mut room).map_err(unwritable)?;
        let sent = self.send(packet);
        // Nothing is answered, so that only a silence tells the nodes where the next request starts.
        self.unsettled = true;
        sent
    }

    fn send(&mut self, packet: &[u8]) -> Result<(), Failure> {
        let silence = if self.unsettled {
            self.silence
        } else {
            self.gap
        };
        let most = self.timeout * 2 + Duration::from_secs(1);
        self.line.drain(silence, most).map_err(Failure::Broken)?;
        self.unsettled = false;
        self.line.send(packet).map_err(Failure::Broken)
    }

    // After something that wasn't answered, the answers may come late, and fit the next request: they are waited for, and dropped.
    fn settle(&mut self) -> Result<(), Failure> {
        let end = Instant::now() + self.timeout * 2;
        while self.owed > 0 {
            let left = end.saturating_duration_since(Instant::now());
            let late = self.line.receive(&[], left, self.silence);
            match late.map_err(Failure::Broken)?.is_empty() {
                true => self.owed = 0,
                false => self.owed -= 1,
            }
            self.unsettled = true;
        }
        Ok(())
    }

    /// Learns the node's variables.
    pub fn learn_variables(&mut self, teller: &mut Teller) -> Result<(), Failure> {
        self.ask(teller, &Request::ListVariables, |answer| {
            matches!(answer, Answer::Variables(_)).then_some(())
        })
    }

    /// Learns the members of a made group, and of those before it, as they are learned in order. Groups 0 to 2 are known with the variables.
    pub fn learn_group(&mut self, teller: &mut Teller, group: usize) -> Result<(), Failure> {
        for number in 3..=group {
            self.ask(teller, &Request::ShowGroup(GroupNumber(number)), |answer| {
                matches!(answer, Answer::Members(_)).then_some(())
            })?;
        }
        Ok(())
    }

    /// Learns the node's curves.
    pub fn learn_curves(&mut self, teller: &mut Teller) -> Result<(), Failure> {
        self.ask(teller, &Request::ListCurves, |answer| {
            matches!(answer, Answer::Curves(_)).then_some(())
        })
    }

    /// Learns the node's functions.
    pub fn learn_functions(&mut self, teller: &mut Teller) -> Result<(), Failure> {
        self.ask(teller, &Request::ListFunctions, |answer| {
            matches!(answer, Answer::Functions(_)).then_some(())
        })
    }
}
