//! The ground secures a telecommand frame and the spacecraft checks it; a replay is refused; both restart and go on.

use xistalvo::{check, command, load, secure, Desk, Kind, Notes, Numbers, Refusal};

const SPI: u16 = 9;
const SEND: u8 = 1;
const RECEIVE: u8 = 2;

/// One end of the link. The image has to outlive a loss of power; the numbers and the notes need not.
struct End {
    image: Vec<u8>,
    numbers: Numbers,
    notes: Notes,
}

/// An image with one association: service 2 (authenticated encryption) for TC frames of spacecraft 27, virtual channel 5.
fn build_image(direction: u8) -> Vec<u8> {
    let mut image = vec![1, 1]; // version, count
    image.extend(SPI.to_be_bytes());
    image.extend(6u16.to_be_bytes()); // position of the body
    image.extend([2, Kind::Tc as u8, direction, 2]); // service, kind, direction, state: operational
    image.extend(27u16.to_be_bytes()); // spacecraft
    image.extend([5, 0]); // virtual channel, MAP
    image.extend(100u16.to_be_bytes()); // window
    image.extend([0xFF, 0xFF, 0xFF, 0xFF, 0xFF, 0]); // header mask: the MAC covers all five octets
    image.extend(0..32); // the key; a real one comes from the key office
    image.extend([0; 4]); // the mark is 0 in a new image
    image
}

fn start(name: &str, image: Vec<u8>, notes: Notes) -> Result<End, Refusal> {
    let numbers = load(&image)?;
    println!("load on the {name}: 0, done; the last number is {}", numbers.last(0).unwrap_or(0));
    Ok(End { image, numbers, notes })
}

fn send(ground: &mut End, data: &[u8]) -> Result<Vec<u8>, Refusal> {
    let mut frame = vec![0, 27, 5 << 2, 5 + data.len() as u8 - 1, 0]; // the length field is the length less one
    frame.extend(data);
    let mut output = [0; 2048];
    let done = secure(&mut ground.image, &mut ground.numbers, Desk::One, Kind::Tc, false, SPI, &frame, &mut output)?;
    let secured = output[..done.length].to_vec();
    let hex: String = secured.iter().map(|octet| format!(" {octet:02X}")).collect();
    println!("secure: 0, done; number {}, stores {}, frame{hex}", ground.numbers.last(0).unwrap_or(0), done.stores);
    Ok(secured)
}

fn receive(space: &mut End, what: &str, frame: &[u8]) {
    let mut output = [0; 2048];
    match check(&mut space.notes, &mut space.image, &mut space.numbers, Desk::One, Kind::Tc, false, frame, &mut output) {
        Ok(done) => {
            let data = String::from_utf8_lossy(&output[..done.length]);
            println!("{what}: 0, done; stores {}, data '{data}'", done.stores);
        }
        Err(refusal) => println!("{what}: {}, {}; stores 0, data ''", refusal.number(), refusal.name()),
    }
}

/// A management command, here one that changes nothing. Over a link, its octets are what a check released.
fn read_number(space: &mut End) -> Result<(), Refusal> {
    let mut output = [0; 17];
    let done = command(&mut space.notes, &mut space.image, &mut space.numbers, Desk::One, &[0x10, 0, 2, 0, SPI as u8], &mut output)?;
    let hex: String = output[..done.length].iter().map(|octet| format!(" {octet:02X}")).collect();
    println!("read number: 0, done; reply{hex}");
    Ok(())
}

/// What the spacecraft would send down in an operational control field.
fn tell_report(space: &End) {
    let hex: String = space.notes.report(Desk::One).iter().map(|octet| format!(" {octet:02X}")).collect();
    println!("report of desk 1:{hex}; events kept {}", space.notes.events().count());
}

fn round_trip() -> Result<(), Refusal> {
    let mut ground = start("ground", build_image(SEND), Notes::fresh())?;
    let mut space = start("spacecraft", build_image(RECEIVE), Notes::fresh())?;

    let frame = send(&mut ground, b"HEAT 1200")?;
    receive(&mut space, "check", &frame);
    receive(&mut space, "the same frame again", &frame);

    let mut ground = start("ground", ground.image, ground.notes)?; // a restart: the numbers were lost, the image was not
    let frame = send(&mut ground, b"HEAT 1250")?;
    receive(&mut space, "check", &frame);

    let mut space = start("spacecraft", space.image, space.notes)?; // the spacecraft restarts too, and still knows the frame
    receive(&mut space, "the same frame again", &frame);
    read_number(&mut space)?;
    tell_report(&space);
    Ok(())
}

fn main() {
    if let Err(refusal) = round_trip() {
        eprintln!("refused: {}, {}", refusal.number(), refusal.name());
        std::process::exit(1);
    }
}
