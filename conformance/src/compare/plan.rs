//! `mvpn_judge` and `mvpn_plan`.

use super::{disagree, Checked, Disagreement, Harness, Input};
use crate::{
    coverage::{Call, Seen, FLOWS},
    ffi::{self, Judged, Planned},
    hexadecimal::encode,
    second::{
        groups::prefixes::NO_PREFIXES,
        matches::choice::{Flow, LEAST_OUTPUT},
        plan::wish::Wish,
        table::{
            calls::TableCall,
            memory::{size, PLACE},
        },
        Second,
    },
};

/// Flows of a plan whose routes are installed and matched each time; with more, now and then.
const FEW: usize = 6;

impl Harness {
    pub fn judge<'a>(&mut self, wish: &Wish, places: impl Into<Input<'a>>) -> Result<Judged, Disagreement> {
        self.judge_before(wish, places, &[])
    }

    /// The same, with `after` standing right behind each part of the wish.
    pub fn judge_before<'a>(
        &mut self,
        wish: &Wish,
        places: impl Into<Input<'a>>,
        after: &[u8],
    ) -> Result<Judged, Disagreement> {
        let places = places.into();
        self.inputs += 1;
        self.lend_wish(wish, after);
        self.lend(places);
        let second = self.second.answer_judge(wish, places.octets);
        let Harness { prefixes, flow: [originator, distinguisher, _], lists: [flows, _], input, .. } = self;
        let archive = ffi::judge(wish.afi, [prefixes, originator, distinguisher, flows], input);
        self.agree(|| format!("mvpn_judge({wish:?}) of {}", encode(places.octets)), &archive, &second)?;
        self.coverage.count(Call::Judge, Seen::Number(archive.number));
        if archive.number == 0 {
            self.count_judged(wish, places.octets);
        }
        Ok(archive)
    }

    /// A plan, given an output that holds these octets. What is proposed is judged by the second decoder and by the archive, is the same
    /// when it is asked for again, and takes each flow as is wanted when it is installed.
    pub fn plan(&mut self, wish: &Wish, output: &[u8]) -> Result<Planned, Disagreement> {
        self.plan_before(wish, output, &[])
    }

    /// The same, with `after` standing right behind each part of the wish.
    pub fn plan_before(&mut self, wish: &Wish, output: &[u8], after: &[u8]) -> Result<Planned, Disagreement> {
        self.inputs += 1;
        let (planned, proposal) = self.planned(wish, output, after)?;
        self.coverage.count(Call::Plan, Seen::Number(planned.number));
        if planned.number != 0 {
            return Ok(planned);
        }
        self.count_planned(wish, planned);
        let proposal = &proposal[..PLACE * planned.routes as usize];
        let other: Vec<u8> = output.iter().map(|octet| !octet).collect();
        let (again, same) = self.planned(wish, &other, &[])?;
        let shown = |law: &str| format!("mvpn_plan({wish:?}) proposes {}: {law}", encode(proposal));
        if (again, &same[..proposal.len()]) != (planned, proposal) {
            return disagree(shown("asked again"), format!("{again:?}, {}", encode(&same)), "the same".into())
                .map(|()| planned);
        }
        let judged = self.judge(wish, proposal)?;
        if judged.accepted != 1 {
            return disagree(shown("judged"), format!("{judged:?}"), "accepted".into()).map(|()| planned);
        }
        let flows = Second::sound().list::<3>(wish.flows).items;
        if flows.len() <= FEW || self.calls.is_multiple_of(16) {
            self.installed(wish, proposal, &flows)?;
        }
        Ok(planned)
    }

    /// One plan, and the output afterwards.
    fn planned(&mut self, wish: &Wish, output: &[u8], after: &[u8]) -> Result<(Planned, Vec<u8>), Disagreement> {
        let pattern = (self.calls % 229) as u8;
        self.lend_wish(wish, after);
        self.output.place(output, &[], pattern);
        let Harness { prefixes, flow: [originator, distinguisher, _], lists: [flows, _], output: lent, .. } = self;
        let archive = ffi::plan(wish.afi, [prefixes, originator, distinguisher, flows], lent);
        let left = self.output.octets().to_vec();
        self.output.expect_any();
        let shown = || format!("mvpn_plan({wish:?}), output {}", encode(output));
        self.agree(shown, &archive, &archive)?;
        match self.second.wrong_plan(wish, output, archive, &left) {
            None => Ok((archive, left)),
            Some(asked) => disagree(shown(), format!("{archive:?}, output {}", encode(&left)), asked)
                .map(|()| (archive, Vec::new())),
        }
    }

    /// The routes proposed, installed into a table that the archive makes: there each flow is matched with the attribute that is wanted.
    fn installed(&mut self, wish: &Wish, proposal: &[u8], flows: &[[&[u8]; 3]]) -> Checked {
        self.make(wish.afi, &vec![0x3C; size(proposal.len() / PLACE)])?;
        for place in proposal.chunks(PLACE) {
            let (nlri, rest) = place[2..].split_at(place[0].into());
            let memory = self.table().to_vec();
            self.table_call(&memory, TableCall::Install { nlri, attribute: &rest[..place[1].into()] })?;
        }
        let memory = self.table().to_vec();
        for [source, group, wanted] in flows {
            let flow = Flow { prefixes: wish.prefixes, router: wish.originator, source, group };
            let answer = self.table_call(&memory, TableCall::Match { flow, output: &[0xC3; LEAST_OUTPUT] })?;
            let taken = answer.matched().map_or(&[][..], |(matched, output)| {
                &output[matched.nlri_size as usize..][..matched.attribute_size as usize]
            });
            if taken != *wanted {
                let shown = format!("mvpn_plan({wish:?}) proposes {}: {flow:?}", encode(proposal));
                return disagree(shown, encode(taken), encode(wanted));
            }
        }
        Ok(())
    }

    fn lend_wish(&mut self, wish: &Wish, after: &[u8]) {
        let pattern = (self.calls % 223) as u8;
        let [originator, distinguisher, _] = &mut self.flow;
        self.prefixes.place(wish.prefixes, after, pattern);
        originator.place(wish.originator, after, pattern);
        distinguisher.place(wish.distinguisher, after, pattern);
        self.lists[0].place(wish.flows, after, pattern);
    }

    /// Whether the proposal is accepted, and why not; the tiers of its flows; and whether its prefixes make it so.
    fn count_judged(&mut self, wish: &Wish, places: &[u8]) {
        let (afi, sound) = (wish.afi, Second::sound());
        let objection = sound.judged(wish, places).unwrap_or_default();
        match objection {
            Some(objection) => self.coverage.count(Call::Judge, Seen::Objected(afi, objection)),
            None => {
                self.coverage.count(Call::Judge, Seen::Accepted(afi, (places.len() / PLACE).min(3)));
                for tier in sound.tiers_of(wish, places) {
                    self.coverage.count(Call::Judge, Seen::Tier(afi, tier));
                }
            }
        }
        let by_standard = Wish { prefixes: NO_PREFIXES, ..*wish };
        if wish.prefixes != NO_PREFIXES {
            let standard = sound.judged(&by_standard, places).unwrap_or_default();
            if standard.is_none() != objection.is_none() {
                self.coverage.count(Call::Judge, Seen::TurnedPlan(afi, objection.is_none()));
            }
        }
    }

    /// How many flows there are, and routes for them, and whether there are as many as there may be.
    fn count_planned(&mut self, wish: &Wish, planned: Planned) {
        let afi = wish.afi;
        let flows = Second::sound().list::<3>(wish.flows).items;
        if FLOWS.contains(&flows.len()) {
            self.coverage.count(Call::Plan, Seen::Flows(afi, flows.len()));
        }
        if flows.iter().enumerate().any(|(at, flow)| flows[..at].contains(flow)) {
            self.coverage.count(Call::Plan, Seen::ListedAgain(afi));
        }
        let most = Second::sound().most_routes(wish);
        self.coverage.count(Call::Plan, Seen::Proposed(afi, planned.routes.min(3)));
        self.coverage.count(Call::Plan, Seen::AsMany(afi, planned.routes as usize == most));
    }
}
