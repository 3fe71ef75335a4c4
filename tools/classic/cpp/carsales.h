// As crates/capnp_classic/src/carsales.rt.
#pragma once
#include "carsales.capnp.h"
#include "random.h"

struct CarSales {
    using Request = ParkingLot;
    using Response = TotalValue;

    uint64_t request(Random &random, ParkingLot::Builder lot) {
        uint64_t value = 0;
        for (auto car : lot.initCars(random.below(200))) {
            value += fillCar(random, car);
        }
        return value;
    }

    void respond(ParkingLot::Reader lot, TotalValue::Builder total) {
        uint64_t amount = 0;
        for (auto car : lot.getCars()) {
            amount += valueOf(car);
        }
        total.setAmount(amount);
    }

    uint64_t said(TotalValue::Reader total) { return total.getAmount(); }

  private:
    static uint64_t fillCar(Random &random, Car::Builder car) {
        static const capnp::Text::Reader MAKES[] = {"Toyota", "GM", "Ford", "Honda", "Tesla"};
        static const capnp::Text::Reader MODELS[] = {"Camry", "Prius", "Volt", "Accord", "Leaf", "Model S"};
        car.setMake(MAKES[random.below(5)]);
        car.setModel(MODELS[random.below(6)]);
        car.setColor(static_cast<Color>(random.below(9)));
        uint8_t seats = 2 + random.below(6), doors = 2 + random.below(3);
        car.setSeats(seats);
        car.setDoors(doors);
        uint64_t value = 200 * seats + 350 * doors;
        for (auto wheel : car.initWheels(4)) {
            uint16_t diameter = 25 + random.below(15);
            wheel.setDiameter(diameter);
            wheel.setAirPressure(30.0f + random.upTo(20.0f));
            bool snow = random.below(16) == 0;
            wheel.setSnowTires(snow);
            value += wheelValue(diameter, snow);
        }
        value += fillSize(random, car);
        value += fillEngine(random, car.initEngine());
        float capacity = 10.0f + random.upTo(30.0f);
        car.setFuelCapacity(capacity);
        car.setFuel(random.upTo(capacity));
        return value + fillExtras(random, car);
    }

    static uint32_t fillSize(Random &random, Car::Builder car) {
        uint16_t length = 170 + random.below(150), width = 48 + random.below(36), height = 54 + random.below(48);
        uint32_t volume = uint32_t(length) * width * height;
        car.setLength(length);
        car.setWidth(width);
        car.setHeight(height);
        car.setWeight(volume / 200);
        return volume / 50;
    }

    static uint32_t fillEngine(Random &random, Engine::Builder engine) {
        uint16_t horsepower = 100 * random.below(400);
        engine.setHorsepower(horsepower);
        engine.setCylinders(4 + 2 * random.below(3));
        engine.setCc(800 + random.below(10000));
        engine.setUsesGas(true);
        bool electric = random.flag();
        engine.setUsesElectric(electric);
        return engineValue(horsepower, true, electric);
    }

    static uint32_t fillExtras(Random &random, Car::Builder car) {
        bool windows = random.flag(), steering = random.flag(), cruise = random.flag();
        uint8_t holders = random.below(12);
        bool system = random.flag();
        car.setHasPowerWindows(windows);
        car.setHasPowerSteering(steering);
        car.setHasCruiseControl(cruise);
        car.setCupHolders(holders);
        car.setHasNavSystem(system);
        return extrasValue(windows, steering, cruise, system) + 25 * holders;
    }

    static uint32_t wheelValue(uint16_t diameter, bool snow) { return uint32_t(diameter) * diameter + (snow ? 100 : 0); }

    static uint32_t engineValue(uint16_t horsepower, bool gas, bool electric) {
        return 40 * horsepower + (electric ? gas ? 5000 : 3000 : 0);
    }

    static uint32_t extrasValue(bool windows, bool steering, bool cruise, bool system) {
        return (windows ? 100 : 0) + (steering ? 200 : 0) + (cruise ? 400 : 0) + (system ? 2000 : 0);
    }

    static uint64_t valueOf(Car::Reader car) {
        uint64_t value = 200 * car.getSeats() + 350 * car.getDoors();
        for (auto wheel : car.getWheels()) {
            value += wheelValue(wheel.getDiameter(), wheel.getSnowTires());
        }
        value += uint32_t(car.getLength()) * car.getWidth() * car.getHeight() / 50;
        auto engine = car.getEngine();
        value += engineValue(engine.getHorsepower(), engine.getUsesGas(), engine.getUsesElectric());
        value += extrasValue(car.getHasPowerWindows(), car.getHasPowerSteering(), car.getHasCruiseControl(),
                             car.getHasNavSystem());
        return value + 25 * car.getCupHolders();
    }
};
