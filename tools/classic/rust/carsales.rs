//! As crates/capnp_classic/src/carsales.rt.
use crate::random::Random;
use crate::root::structs;
use crate::Benchmark;
use capnp::private::layout::{StructBuilder, StructReader, StructSize};
use capnp::Result;

const LOT: StructSize = StructSize { data: 0, pointers: 1 };
const TOTAL: StructSize = StructSize { data: 1, pointers: 0 };
const CAR: StructSize = StructSize { data: 3, pointers: 4 };
const WHEEL: StructSize = StructSize { data: 1, pointers: 0 };
const ENGINE: StructSize = StructSize { data: 1, pointers: 0 };

const MAKES: [&str; 5] = ["Toyota", "GM", "Ford", "Honda", "Tesla"];

const MODELS: [&str; 6] = ["Camry", "Prius", "Volt", "Accord", "Leaf", "Model S"];

#[derive(Default)]
pub struct CarSales;

impl Benchmark for CarSales {
    const REQUEST: StructSize = LOT;
    const RESPONSE: StructSize = TOTAL;

    fn request(&mut self, random: &mut Random, lot: StructBuilder<'_>) -> u64 {
        let count = random.below(200);
        let mut cars = lot.get_pointer_field(0).init_struct_list(count, CAR);
        let mut value = 0;
        for index in 0..count {
            value += fill_car(random, cars.reborrow().get_struct_element(index));
        }
        value
    }

    fn respond(&mut self, lot: StructReader<'_>, total: StructBuilder<'_>) -> Result<()> {
        let cars = structs(&lot, 0)?;
        let mut amount = 0;
        for index in 0..cars.len() {
            amount += value_of(cars.get_struct_element(index))?;
        }
        total.set_data_field::<u64>(0, amount);
        Ok(())
    }

    fn said(&self, total: StructReader<'_>) -> Result<u64> {
        Ok(total.get_data_field::<u64>(0))
    }
}

fn fill_car(random: &mut Random, car: StructBuilder<'_>) -> u64 {
    let make = MAKES[random.below(5) as usize];
    car.get_pointer_field(0).set_text(make);
    let model = MODELS[random.below(6) as usize];
    car.get_pointer_field(1).set_text(model);
    car.set_data_field::<u16>(0, random.below(9) as u16);
    let seats = 2 + random.below(6) as u8;
    let doors = 2 + random.below(3) as u8;
    car.set_data_field::<u8>(2, seats);
    car.set_data_field::<u8>(3, doors);
    let mut value = 200 * seats as u64 + 350 * doors as u64;
    let mut wheels = car.get_pointer_field(2).init_struct_list(4, WHEEL);
    for index in 0..4 {
        let wheel = wheels.reborrow().get_struct_element(index);
        let diameter = 25 + random.below(15) as u16;
        wheel.set_data_field::<u16>(0, diameter);
        wheel.set_data_field::<f32>(1, 30.0 + random.up_to(20.0));
        let snow = random.below(16) == 0;
        wheel.set_bool_field(16, snow);
        value += wheel_value(diameter, snow) as u64;
    }
    value += fill_size(random, &car) as u64;
    value += fill_engine(random, car.get_pointer_field(3).init_struct(ENGINE)) as u64;
    let capacity = 10.0 + random.up_to(30.0);
    car.set_data_field::<f32>(4, capacity);
    car.set_data_field::<f32>(5, random.up_to(capacity));
    value + fill_extras(random, &car) as u64
}

fn fill_size(random: &mut Random, car: &StructBuilder<'_>) -> u32 {
    let length = 170 + random.below(150) as u16;
    let width = 48 + random.below(36) as u16;
    let height = 54 + random.below(48) as u16;
    let volume = length as u32 * width as u32 * height as u32;
    car.set_data_field::<u16>(2, length);
    car.set_data_field::<u16>(3, width);
    car.set_data_field::<u16>(4, height);
    car.set_data_field::<u32>(3, volume / 200);
    volume / 50
}

fn fill_engine(random: &mut Random, engine: StructBuilder<'_>) -> u32 {
    let horsepower = 100 * random.below(400) as u16;
    engine.set_data_field::<u16>(0, horsepower);
    engine.set_data_field::<u8>(2, 4 + 2 * random.below(3) as u8);
    engine.set_data_field::<u32>(1, 800 + random.below(10000));
    engine.set_bool_field(24, true);
    let electric = random.flag();
    engine.set_bool_field(25, electric);
    engine_value(horsepower, true, electric)
}

fn fill_extras(random: &mut Random, car: &StructBuilder<'_>) -> u32 {
    let windows = random.flag();
    let steering = random.flag();
    let cruise = random.flag();
    let holders = random.below(12) as u8;
    let system = random.flag();
    car.set_bool_field(80, windows);
    car.set_bool_field(81, steering);
    car.set_bool_field(82, cruise);
    car.set_data_field::<u8>(11, holders);
    car.set_bool_field(83, system);
    extras_value(windows, steering, cruise, system) + 25 * holders as u32
}

fn wheel_value(diameter: u16, snow: bool) -> u32 {
    diameter as u32 * diameter as u32 + if snow { 100 } else { 0 }
}

fn engine_value(horsepower: u16, gas: bool, electric: bool) -> u32 {
    40 * horsepower as u32
        + match (electric, gas) {
            (true, true) => 5000,
            (true, false) => 3000,
            _ => 0,
        }
}

fn extras_value(windows: bool, steering: bool, cruise: bool, system: bool) -> u32 {
    let power = if windows { 100 } else { 0 } + if steering { 200 } else { 0 };
    power + if cruise { 400 } else { 0 } + if system { 2000 } else { 0 }
}

fn value_of(car: StructReader<'_>) -> Result<u64> {
    let mut value = 200 * car.get_data_field::<u8>(2) as u64 + 350 * car.get_data_field::<u8>(3) as u64;
    let wheels = structs(&car, 2)?;
    for index in 0..wheels.len() {
        let wheel = wheels.get_struct_element(index);
        value += wheel_value(wheel.get_data_field::<u16>(0), wheel.get_bool_field(16)) as u64;
    }
    let volume =
        car.get_data_field::<u16>(2) as u32 * car.get_data_field::<u16>(3) as u32 * car.get_data_field::<u16>(4) as u32;
    value += (volume / 50) as u64;
    let engine = car.get_pointer_field(3).get_struct(None)?;
    value += engine_value(engine.get_data_field::<u16>(0), engine.get_bool_field(24), engine.get_bool_field(25)) as u64;
    let (windows, steering) = (car.get_bool_field(80), car.get_bool_field(81));
    value += extras_value(windows, steering, car.get_bool_field(82), car.get_bool_field(83)) as u64;
    Ok(value + 25 * car.get_data_field::<u8>(11) as u64)
}
