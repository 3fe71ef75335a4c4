// Reads a whole message, as tools/library/src/views does: the sum of all numbers, and of the lengths and the bytes of all texts.
#pragma once
#include "messages.capnp.h"

#include <capnp/message.h>

#include <string>

static uint64_t sumOf(capnp::Text::Reader text) {
    uint64_t sum = text.size();
    for (unsigned char byte : text.asBytes()) {
        sum += byte;
    }
    return sum;
}

// The number and the name of a group.
template <typename Group> static uint64_t sumOfGroup(Group group) { return group.getId() + sumOf(group.getName()); }

static uint64_t sumOf(Account::Reader account) { return sumOfGroup(account) + account.getAmount(); }

static uint64_t sumOf(Record::Reader record) {
    uint64_t sum = sumOfGroup(record);
    for (uint32_t sample : record.getSamples()) {
        sum += sample;
    }
    return sum;
}

static uint64_t sumOf(Member::Reader member) {
    auto address = member.getAddress();
    return sumOfGroup(member) + member.getPay() + address.getNumber() + sumOf(address.getStreet());
}

template <typename List> static uint64_t sumOfAll(List list) {
    uint64_t sum = 0;
    for (auto element : list) {
        sum += sumOf(element);
    }
    return sum;
}

static uint64_t sumOf(Team::Reader team) { return sumOfGroup(team) + sumOfAll(team.getMembers()); }

static uint64_t sumOf(Department::Reader department) { return sumOfGroup(department) + sumOfAll(department.getTeams()); }

static uint64_t sumOf(const std::string &shape, capnp::MessageReader &message) {
    if (shape == "accounts") {
        return sumOfAll(message.getRoot<Accounts>().getAccounts());
    }
    if (shape == "records") {
        return sumOfAll(message.getRoot<Records>().getRecords());
    }
    if (shape == "names") {
        return sumOfAll(message.getRoot<Names>().getNames());
    }
    auto company = message.getRoot<Company>();
    return sumOfGroup(company) + sumOfAll(company.getDepartments());
}
