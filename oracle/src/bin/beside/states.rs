//! One operation on a state that no script makes, again and again: of the whole machine, of the parts
//! where no event reaches them, and of the debugger's view.

use oracle::both::{same, step};
use oracle::cpu_privilege::{Access, Exception, SystemState};
use oracle::event::{Event, Replay};
use oracle::generate::run::Run;
use oracle::generate::system::edge;
use oracle::generate::tables::Layout;
use oracle::generate::{cache::length, cache::Generator, irqc, scripts, states};
use oracle::machine::Machine;
use oracle::port;
use oracle::random::Random;
use oracle::state::{Privilege, SLOTS};
use oracle::{access, bus::Bus, cache, irqc as controller};

/// Rounds over one set of tables; then come others.
const ROUNDS: u64 = 500;

/// Compares `count` rounds: a machine and an event, a privilege state that is asked, a controller, a
/// cache.
pub fn run(seed: u64, count: u64) -> Result<String, String> {
    let mut lanes = Generator::new(seed);
    let mut done = 0;
    while done < count {
        let tables = seed.wrapping_add(done / ROUNDS);
        let wanted = ROUNDS.min(count - done);
        over_tables(tables, wanted, &mut lanes)
            .map_err(|what| format!("tables of seed {tables}: {what}"))?;
        done += wanted;
    }
    Ok(format!(
        "states: {count} rounds agreed, each over four states (seed {seed})"
    ))
}

/// A set of tables, and `count` rounds over it.
fn over_tables(seed: u64, count: u64, lanes: &mut Generator) -> Result<(), String> {
    let mut random = Random::new(seed);
    let pages = 1 + random.below(3);
    let base = random.pick(&[0, 0x0004_0000, 0x7FFF_F000, 0xFFFF_0000 - pages * 4096]);
    let layout = Layout::new(base, pages);
    let image = layout.image(&mut random);
    let mut run = Run::new(random, layout);
    for _ in 0..count {
        machine(&mut run, &image)?;
        let state = states::machine(&mut run).sys;
        allows(&mut run, &state)?;
        translation(&mut run, &state, &image)?;
        slots(&mut run, &state)?;
        registers(&mut run, lanes)?;
        lines_visited(&mut run)?;
        exception(&mut run.random)?;
    }
    Ok(())
}

/// Any event; no sweep is long.
fn machine(run: &mut Run, image: &[u8]) -> Result<(), String> {
    let state = states::machine(run);
    let event = scripts::event(run, state.sys.vm.enabled, &mut 0);
    let base = run.layout.base;
    let mut published = Machine::with_state(&state, base, image);
    let mut port = port::machine::Machine::with_state(&state, base, image);
    match step(&mut published, &mut port, &event) {
        Ok(_) => Ok(()),
        Err(what) => Err(format!("{event}: {what}\n{state:?}")),
    }
}

fn any_access(random: &mut Random) -> Access {
    random.pick(&[Access::Read, Access::Write, Access::Fetch])
}

/// `allows`, of any length.
fn allows(run: &mut Run, state: &Privilege) -> Result<(), String> {
    let addr = run.address(false);
    let length = run.random.below(12) + run.random.pick(&[0, 0, 0, 500]);
    let access = any_access(&mut run.random);
    same(
        &format!("answer to allows {addr:08X} {length} {access:?}"),
        &SystemState::with_state(state).allows(addr, length, access),
        &port::privilege::allows(state, addr, length, access),
    )
}

/// `debug_translate`.
fn translation(run: &mut Run, state: &Privilege, image: &[u8]) -> Result<(), String> {
    let (va, base) = (run.address(true), run.layout.base);
    let mut bus = Bus::new(base, image);
    let sys = SystemState::with_state(state);
    let published = sys.debug_translate(va, |pa| access::physical_word(&mut bus, pa));
    same(
        &format!("translation of {va:08X}"),
        &Ok(published),
        &port::privilege::debug_translate(state, image, base, va),
    )
}

/// Every slot's view; the port reads an index modulo 16.
fn slots(run: &mut Run, state: &Privilege) -> Result<(), String> {
    let view = SystemState::with_state(state).mmu_snapshot();
    let beyond = run.random.pick(&[0, 16, 0x100, usize::MAX - 15]);
    for index in 0..SLOTS {
        same(
            &format!("view of slot {index}"),
            &view.entries[index],
            &port::privilege::tlb_entry(state, index + beyond),
        )?;
    }
    Ok(())
}

/// The controller's and the cache's own operations: register bytes and lanes, several sources at once,
/// any range.
fn registers(run: &mut Run, lanes: &mut Generator) -> Result<(), String> {
    let state = states::controller(&mut run.random);
    let event = irqc::event(&mut run.random);
    let mut published = controller::Published::with_state(&state);
    let mut port = port::irqc::Port(state);
    same_step(&mut published, &mut port, &event)?;
    same("controller", &published.state(), &port.0)?;

    let state = states::cache(run);
    let event = lanes.event();
    let mut published = cache::Published::with_state(&state);
    let mut port = port::cache::Port(state);
    same_step(&mut published, &mut port, &event)?;
    same("cache", &published.state(), &port.0)
}

/// How many lines an external write of any length visits: none is carried out, so none is cut.
fn lines_visited(run: &mut Run) -> Result<(), String> {
    let pa = match run.random.below(4) {
        0 => run.random.word(),
        1 => u32::MAX - run.random.below(0x3000),
        _ => edge(&mut run.random, &run.layout),
    };
    let mut uncut = 1;
    let len = length(&mut run.random, pa, &mut uncut);
    same(
        &format!("lines visited from {pa:08X} for {len:08X}"),
        &cache::lines_visited(pa, len),
        &port::cache::lines_visited(pa, len),
    )
}

fn same_step(
    published: &mut dyn Replay,
    port: &mut dyn Replay,
    event: &Event,
) -> Result<(), String> {
    let (wanted, got) = (published.step(event), port.step(event));
    same(&format!("answer to {event}"), &wanted, &got)
}

/// CAUSE and vector of any exception.
fn exception(random: &mut Random) -> Result<(), String> {
    let access = any_access(random);
    let exceptions = [
        Exception::IllegalInstruction,
        Exception::BusError,
        Exception::Syscall(random.half()),
        Exception::PrivilegedInstruction,
        Exception::ProtectionFault(access),
        Exception::PageFault {
            access,
            protection: random.chance(50),
            addr: random.word(),
        },
    ];
    let exception = random.pick(&exceptions);
    same(
        &format!("cause and vector of {exception:?}"),
        &(exception.cause(), exception.vector()),
        &port::privilege::cause_and_vector(exception),
    )
}
