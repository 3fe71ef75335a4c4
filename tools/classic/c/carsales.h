/* As crates/capnp_classic/src/carsales.rt. */
#ifndef CARSALES_H
#define CARSALES_H

#include "carsales_capnp.h"

#include <stdio.h>
#include <stdlib.h>

/* The numbers that all messages are made of, as crates/capnp_classic/src/random.rt makes them. */
struct random {
    uint64_t state;
};

static inline struct random random_of(uint32_t seed) {
    struct random random = {seed * UINT64_C(0x9e3779b97f4a7c15) | 1};
    return random;
}

static inline uint32_t random_next(struct random *random) {
    uint64_t state = random->state;
    state ^= state >> 12;
    state ^= state << 25;
    state ^= state >> 27;
    random->state = state;
    return (uint32_t)(state * UINT64_C(0x2545f4914f6cdd1d) >> 32);
}

/* The next number, below a bound. */
static inline uint32_t random_below(struct random *random, uint32_t bound) { return random_next(random) % bound; }

/* The next number, as one of two. */
static inline bool random_flag(struct random *random) { return random_below(random, 2) == 1; }

/* The next number from 0 to a bound. */
static inline float random_up_to(struct random *random, float bound) {
    return (float)(random_next(random) >> 16) * bound / 65535.0f;
}

enum { MOST_CARS = 200 };

/* Ends the program where a call failed. */
static inline void expect(int error) {
    if (error == LINSJOAR_OK)
        return;
    fprintf(stderr, "carsales: %d %s\n", error, linsjoar_error_name(error));
    exit(error);
}

struct name {
    const char *letters;
    size_t len;
};

static struct linsjoar_text_orphan add_name(struct linsjoar_message *message, const struct name *name) {
    struct linsjoar_text_orphan orphan;
    expect(linsjoar_add_string_with_len(message, name->letters, name->len, &orphan));
    return orphan;
}

static uint32_t wheel_value(uint16_t diameter, bool snow) { return (uint32_t)diameter * diameter + (snow ? 100 : 0); }

static uint32_t engine_value(uint16_t horsepower, bool gas, bool electric) {
    return 40u * horsepower + (electric ? gas ? 5000 : 3000 : 0);
}

static uint32_t extras_value(bool windows, bool steering, bool cruise, bool system) {
    return (windows ? 100 : 0) + (steering ? 200 : 0) + (cruise ? 400 : 0) + (system ? 2000 : 0);
}

static uint32_t fill_wheels(struct random *random, struct linsjoar_message *message, struct Car_draft *car) {
    struct Wheel_draft wheels[4];
    struct Wheel_list_orphan orphan;
    uint32_t value = 0;
    for (int i = 0; i < 4; i++) {
        uint16_t diameter = 25 + random_below(random, 15);
        bool snow;
        wheels[i] = Wheel_new();
        Wheel_set_diameter(&wheels[i], diameter);
        Wheel_set_airPressure(&wheels[i], 30.0f + random_up_to(random, 20.0f));
        snow = random_below(random, 16) == 0;
        Wheel_set_snowTires(&wheels[i], snow);
        value += wheel_value(diameter, snow);
    }
    expect(Wheel_add_list(message, wheels, 4, &orphan));
    Car_set_wheels(car, orphan);
    return value;
}

static uint32_t fill_size(struct random *random, struct Car_draft *car) {
    uint16_t length = 170 + random_below(random, 150);
    uint16_t width = 48 + random_below(random, 36);
    uint16_t height = 54 + random_below(random, 48);
    uint32_t volume = (uint32_t)length * width * height;
    Car_set_length(car, length);
    Car_set_width(car, width);
    Car_set_height(car, height);
    Car_set_weight(car, volume / 200);
    return volume / 50;
}

static uint32_t fill_engine(struct random *random, struct linsjoar_message *message, struct Car_draft *car) {
    struct Engine_draft engine = Engine_new();
    struct Engine_orphan orphan;
    uint16_t horsepower = 100 * random_below(random, 400);
    bool electric;
    Engine_set_horsepower(&engine, horsepower);
    Engine_set_cylinders(&engine, 4 + 2 * random_below(random, 3));
    Engine_set_cc(&engine, 800 + random_below(random, 10000));
    Engine_set_usesGas(&engine, true);
    electric = random_flag(random);
    Engine_set_usesElectric(&engine, electric);
    expect(Engine_add(message, &engine, &orphan));
    Car_set_engine(car, orphan);
    return engine_value(horsepower, true, electric);
}

static uint32_t fill_extras(struct random *random, struct Car_draft *car) {
    bool windows = random_flag(random), steering = random_flag(random), cruise = random_flag(random);
    uint8_t holders = random_below(random, 12);
    bool system = random_flag(random);
    Car_set_hasPowerWindows(car, windows);
    Car_set_hasPowerSteering(car, steering);
    Car_set_hasCruiseControl(car, cruise);
    Car_set_cupHolders(car, holders);
    Car_set_hasNavSystem(car, system);
    return extras_value(windows, steering, cruise, system) + 25 * holders;
}

/* Sets each field of a car, and returns its value. */
static uint64_t fill_car(struct random *random, struct linsjoar_message *message, struct Car_draft *car) {
    static const struct name makes[] = {{"Toyota", 6}, {"GM", 2}, {"Ford", 4}, {"Honda", 5}, {"Tesla", 5}};
    static const struct name models[] = {{"Camry", 5}, {"Prius", 5}, {"Volt", 4}, {"Accord", 6}, {"Leaf", 4}, {"Model S", 7}};
    uint8_t seats, doors;
    uint64_t value;
    float capacity;
    *car = Car_new();
    Car_set_make(car, add_name(message, &makes[random_below(random, 5)]));
    Car_set_model(car, add_name(message, &models[random_below(random, 6)]));
    Car_set_color(car, (enum Color)random_below(random, 9));
    seats = 2 + random_below(random, 6);
    doors = 2 + random_below(random, 3);
    Car_set_seats(car, seats);
    Car_set_doors(car, doors);
    value = 200u * seats + 350u * doors;
    value += fill_wheels(random, message, car);
    value += fill_size(random, car);
    value += fill_engine(random, message, car);
    capacity = 10.0f + random_up_to(random, 30.0f);
    Car_set_fuelCapacity(car, capacity);
    Car_set_fuel(car, random_up_to(random, capacity));
    return value + fill_extras(random, car);
}

/* Builds a request, and returns what the response has to say. */
static uint64_t build_request(struct random *random, struct linsjoar_message *message) {
    static struct Car_draft cars[MOST_CARS];
    struct ParkingLot_draft lot = ParkingLot_new();
    uint32_t count = random_below(random, MOST_CARS);
    struct Car_list_orphan orphan;
    struct ParkingLot_orphan root;
    uint64_t value = 0;
    for (uint32_t i = 0; i < count; i++)
        value += fill_car(random, message, &cars[i]);
    expect(Car_add_list(message, cars, count, &orphan));
    ParkingLot_set_cars(&lot, orphan);
    expect(ParkingLot_add(message, &lot, &root));
    expect(linsjoar_message_set_root(message, root.word));
    return value;
}

/* The value of a car, as it is read. */
static uint64_t value_of(const struct Car_reader *car) {
    uint64_t value = 200u * Car_get_seats(car) + 350u * Car_get_doors(car);
    struct Wheel_list_reader wheels;
    struct Engine_reader engine;
    expect(Car_get_wheels(car, &wheels));
    for (uint32_t i = 0; i < Wheel_list_len(&wheels); i++) {
        struct Wheel_reader wheel = Wheel_list_get(&wheels, i);
        value += wheel_value(Wheel_get_diameter(&wheel), Wheel_get_snowTires(&wheel));
    }
    value += (uint32_t)Car_get_length(car) * Car_get_width(car) * Car_get_height(car) / 50;
    expect(Car_get_engine(car, &engine));
    value += engine_value(Engine_get_horsepower(&engine), Engine_get_usesGas(&engine), Engine_get_usesElectric(&engine));
    value += extras_value(Car_get_hasPowerWindows(car), Car_get_hasPowerSteering(car), Car_get_hasCruiseControl(car),
                          Car_get_hasNavSystem(car));
    return value + 25u * Car_get_cupHolders(car);
}

/* Reads a request, and builds the response to it. */
static void respond(const struct linsjoar_pointer_reader *request, struct linsjoar_message *response) {
    struct ParkingLot_reader lot;
    struct Car_list_reader cars;
    struct TotalValue_draft total = TotalValue_new();
    struct TotalValue_orphan orphan;
    uint64_t amount = 0;
    expect(ParkingLot_read(request, &lot));
    expect(ParkingLot_get_cars(&lot, &cars));
    for (uint32_t i = 0; i < Car_list_len(&cars); i++) {
        struct Car_reader car = Car_list_get(&cars, i);
        amount += value_of(&car);
    }
    TotalValue_set_amount(&total, amount);
    expect(TotalValue_add(response, &total, &orphan));
    expect(linsjoar_message_set_root(response, orphan.word));
}

/* What a response says. */
static uint64_t said(const struct linsjoar_pointer_reader *response) {
    struct TotalValue_reader total;
    expect(TotalValue_read(response, &total));
    return TotalValue_get_amount(&total);
}

#endif
