//! One launch through both loaders, and what differs.

use crate::crash;
use crate::desk;
use crate::draft::{Draft, Launch};
use crate::lent::{Arena, Side};
use crate::library;
use crate::noise::{self, LONGEST, STARTS};
use crate::second;
use crate::views;

/// Bytes beside each lent buffer that must not change, on the side without an unreadable page.
const BESIDE: usize = 256;
const MARK: u8 = 0x5C;

const LONGEST_MAP: usize = 4 << 12;
pub const LONGEST_BUFFER: usize = 1 << 20;

/// Where the four lent things stand, and what the buffers hold before the call.
#[derive(Clone, Copy, Debug)]
pub struct Setting {
    pub image: Side,
    pub map: Side,
    pub plan: Side,
    pub hob: Side,
    pub garbage: usize,
}

impl Setting {
    /// One of the 16 ways to place the four, by the low bits of a number.
    pub fn new(number: u64) -> Setting {
        let side = |bit: u32| {
            if number >> bit & 1 == 0 {
                Side::Before
            } else {
                Side::Behind
            }
        };
        Setting {
            image: side(0),
            map: side(1),
            plan: side(2),
            hob: side(3),
            garbage: (number.wrapping_mul(7_919) % STARTS as u64) as usize,
        }
    }
}

/// What turns go on from: the plan and the first state, and the measurement that a launch answers.
pub struct Start {
    pub measurement: [u8; 48],
    pub state: second::turns::State,
    pub plan: Vec<u8>,
}

/// The lent memory of one thread of calls.
pub struct Bench {
    pub noise: Vec<u8>,
    image: Arena,
    map: Arena,
    plan: Arena,
    hob: Arena,
    launch: Launch,
    /// Whether the launch is the one that is tried.
    is_tried: bool,
    pub views: views::Views,
    settings: u64,
}

impl Bench {
    pub fn new() -> Bench {
        Bench {
            noise: noise::noise(),
            image: Arena::new(LONGEST),
            map: Arena::new(LONGEST_MAP),
            plan: Arena::new(LONGEST_BUFFER),
            hob: Arena::new(LONGEST_BUFFER),
            launch: Launch::default(),
            is_tried: false,
            views: views::Views::new(),
            settings: 0,
        }
    }

    pub fn rendered(&self) -> &Launch {
        &self.launch
    }

    /// The launch to be reported, where it is one that fails.
    pub fn tried(&self) -> Option<&Launch> {
        self.is_tried.then_some(&self.launch)
    }

    /// Takes a launch that was tried elsewhere for the last one, to be reported.
    pub fn show(&mut self, launch: Launch) {
        self.launch = launch;
        self.is_tried = true;
    }

    /// Says that what comes next is no launch.
    pub fn forget(&mut self) {
        self.is_tried = false;
    }

    fn render(&mut self, draft: &Draft) {
        draft.render(&self.noise, &mut self.launch);
        self.is_tried = true;
    }

    /// Tries a draft in the next of the 16 settings. Answers what the second loader answers, or
    /// what differs.
    pub fn try_draft(&mut self, draft: &Draft) -> Result<second::Answer, String> {
        self.settings += 1;
        self.try_in(draft, Setting::new(self.settings))
    }

    pub fn try_in(&mut self, draft: &Draft, setting: Setting) -> Result<second::Answer, String> {
        self.render(draft);
        let answer = self.call(library::tdload_launch, setting);
        let launch = &self.launch;
        let (expected, plan, hob) = second::launch(
            &launch.image,
            &launch.map,
            launch.width,
            launch.plan_length,
            launch.hob_length,
        );
        compare_answers(&answer, &expected)?;
        self.compare_buffers(&plan, &hob, setting)?;
        if expected.refusal == 0 {
            let launch = &self.launch;
            let list = &hob[..expected.hob_length as usize];
            crash::entering(Some(launch));
            let compared = self
                .views
                .compare_plan(&launch.image, list, &plan, expected.pages);
            crash::left();
            compared?;
        }
        Ok(expected)
    }

    /// Tries a draft as a start of turns: the library's start is compared with the second loader's, and
    /// with the library's launch, which is tried first.
    pub fn try_start(&mut self, draft: &Draft, setting: Setting) -> Result<Start, String> {
        self.render(draft);
        let launched = self.call(library::tdload_launch, setting);
        let launched_plan = self.plan.read(self.launch.plan_length, setting.plan).to_vec();
        let launched_hob = self.hob.read(self.launch.hob_length, setting.hob).to_vec();
        let begun = self.call(library::tdload_begin, setting);
        let launch = &self.launch;
        let (expected, state, plan, hob) = second::turns::begin(
            &launch.image,
            &launch.map,
            launch.width,
            launch.plan_length,
            launch.hob_length,
        );
        compare_answers(&begun.answer, &expected)?;
        desk::compare_states(begun.state, &state)?;
        self.compare_buffers(&plan, &hob, setting)?;
        let measurement = launched.measurement;
        let unmeasured = library::Answer {
            measurement: [0; 48],
            ..launched
        };
        compare_answers(&unmeasured, &expected).map_err(|what| format!("as a launch: {what}"))?;
        same_bytes("launch's plan", &launched_plan, &plan)?;
        same_bytes("launch's HOB", &launched_hob, &hob)?;
        Ok(Start {
            measurement,
            state,
            plan,
        })
    }

    /// The rules that the last rendered launch breaks, by the second loader.
    pub fn broken(&self) -> Vec<second::Broken> {
        let launch = &self.launch;
        second::broken(
            &launch.image,
            &launch.map,
            launch.width,
            launch.plan_length,
            launch.hob_length,
        )
    }

    /// Lends the rendered launch, and buffers full of garbage, to a launch or a start.
    fn call<T>(&mut self, function: library::Launching<T>, setting: Setting) -> T {
        let launch = &self.launch;
        let image = self.image.write(&launch.image, setting.image);
        let map = if launch.map_in_image {
            image
        } else {
            self.map.write(&launch.map, setting.map)
        };
        let buffers = [
            (&mut self.plan, launch.plan_length, setting.plan),
            (&mut self.hob, launch.hob_length, setting.hob),
        ];
        let mut places = [std::ptr::null_mut(); 2];
        for (k, (arena, length, side)) in buffers.into_iter().enumerate() {
            let garbage = &self.noise[setting.garbage..setting.garbage + length];
            places[k] = arena.write(garbage, side);
            arena.beside(length, side, BESIDE).fill(MARK);
        }
        self.image.set_read_only(launch.image.len(), setting.image, true);
        self.map.set_read_only(launch.map.len(), setting.map, true);
        crash::entering(Some(launch));
        let answer = unsafe {
            function(
                image,
                launch.image.len(),
                map,
                launch.map.len(),
                launch.width,
                places[0],
                launch.plan_length,
                places[1],
                launch.hob_length,
            )
        };
        crash::left();
        self.image.set_read_only(launch.image.len(), setting.image, false);
        self.map.set_read_only(launch.map.len(), setting.map, false);
        answer
    }

    fn compare_buffers(&mut self, plan: &[u8], hob: &[u8], setting: Setting) -> Result<(), String> {
        same_bytes("plan", self.plan.read(plan.len(), setting.plan), plan)?;
        same_bytes("HOB", self.hob.read(hob.len(), setting.hob), hob)?;
        let marked = |bytes: &[u8]| bytes.iter().all(|&byte| byte == MARK);
        if !marked(self.plan.beside(plan.len(), setting.plan, BESIDE)) {
            return Err("bytes beside the plan buffer are changed".to_string());
        }
        if !marked(self.hob.beside(hob.len(), setting.hob, BESIDE)) {
            return Err("bytes beside the HOB buffer are changed".to_string());
        }
        Ok(())
    }
}

pub fn compare_answers(answer: &library::Answer, expected: &second::Answer) -> Result<(), String> {
    let answer = second::Answer {
        refusal: answer.refusal,
        place: answer.place,
        index: answer.index,
        pages: answer.pages,
        hob_length: answer.hob_length,
        blocks: answer.blocks,
        measurement: answer.measurement,
    };
    if answer == *expected {
        return Ok(());
    }
    let (left, right) = (shown(&answer), shown(expected));
    Err(format!(
        "the library answers\n  {left}\nand the second loader\n  {right}"
    ))
}

pub fn shown(answer: &second::Answer) -> String {
    let digits: String = answer
        .measurement
        .iter()
        .map(|byte| format!("{byte:02x}"))
        .collect();
    format!(
        "refusal {} place {} index {} pages {} hob {} blocks {} measurement {}",
        answer.refusal, answer.place, answer.index, answer.pages, answer.hob_length, answer.blocks, digits
    )
}

pub fn same_bytes(what: &str, bytes: &[u8], expected: &[u8]) -> Result<(), String> {
    if bytes == expected {
        return Ok(());
    }
    let at = (0..expected.len()).find(|&k| bytes.get(k) != Some(&expected[k]));
    let at = at.unwrap_or(expected.len());
    let some = |bytes: &[u8]| format!("{:02x?}", &bytes[at.min(bytes.len())..(at + 16).min(bytes.len())]);
    let (left, right) = (some(bytes), some(expected));
    Err(format!(
        "the {what} buffer differs from byte {at} on: the library wrote {left} and the second loader {right}"
    ))
}
