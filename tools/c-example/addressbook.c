/* Reads the address book on standard input (crates/capnpc_sample/schemas/addressbook.capnp), a framed message, and
 * writes it built anew, by the types that the schema compiler writes for C (crates/capnpc_sample/addressbook_capnp.h).
 * The status is the number of an error, whose name is on standard error, and 0 without one. */
#include "addressbook_capnp.h"
#include <stdio.h>

static uint8_t bytes[1 << 24];
static struct linsjoar_message message;

static void expect(enum linsjoar_error error) {
    if (error != LINSJOAR_OK)
        exit(fprintf(stderr, "addressbook: %d %s\n", (int)error, linsjoar_error_name((int)error)) < 0 ? 255 : (int)error);
}

static void copy_phones(const struct Person_reader *person, struct Person_draft *draft) {
    struct Person_PhoneNumber_list_reader phones;
    struct Person_PhoneNumber_drafts pushed = {{0, 0}};
    struct Person_PhoneNumber_list_orphan list;
    expect(Person_get_phones(person, &phones));
    for (uint32_t i = 0; i < Person_PhoneNumber_list_len(&phones); i++) {
        struct Person_PhoneNumber_reader phone = Person_PhoneNumber_list_get(&phones, i);
        struct Person_PhoneNumber_draft copy = Person_PhoneNumber_new();
        expect(Person_PhoneNumber_copy_number(&phone, &message, &copy));
        Person_PhoneNumber_set_type(&copy, Person_PhoneNumber_get_type(&phone));
        expect(Person_PhoneNumber_push(&message, &pushed, &copy));
    }
    expect(Person_PhoneNumber_add_drafts(&message, &pushed, &list));
    Person_set_phones(draft, list);
}

static void copy_person(struct Person_reader person, struct Person_drafts *pushed) {
    struct Person_draft draft = Person_new();
    Person_set_id(&draft, Person_get_id(&person));
    expect(Person_copy_name(&person, &message, &draft));
    expect(Person_copy_email(&person, &message, &draft));
    if (Person_has_phones(&person))
        copy_phones(&person, &draft);
    if (Person_employment_which(&person) == Person_employment_which_employer)
        expect(Person_employment_copy_employer(&person, &message, &draft));
    else if (Person_employment_which(&person) == Person_employment_which_school)
        expect(Person_employment_copy_school(&person, &message, &draft));
    else if (Person_employment_which(&person) == Person_employment_which_selfEmployed)
        Person_employment_set_selfEmployed(&draft);
    expect(Person_push(&message, pushed, &draft));
}

int main(void) {
    struct linsjoar_reader reader;
    struct AddressBook_reader book;
    struct AddressBook_draft copy = AddressBook_new();
    struct Person_list_reader people;
    struct Person_drafts pushed = {{0, 0}};
    struct Person_list_orphan list;
    size_t len = fread(bytes, 1, sizeof bytes, stdin);
    expect(AddressBook_root(bytes, len, &reader, &book));
    expect(AddressBook_get_people(&book, &people));
    expect(linsjoar_message_begin(&message, NULL, 0, linsjoar_heap));
    for (uint32_t i = 0; i < Person_list_len(&people); i++)
        copy_person(Person_list_get(&people, i), &pushed);
    if (AddressBook_has_people(&book)) {
        expect(Person_add_drafts(&message, &pushed, &list));
        AddressBook_set_people(&copy, list);
    }
    expect(AddressBook_finish(&message, &copy, &len));
    return fwrite(message.region, 1, len, stdout) == len && fflush(stdout) == 0 ? 0 : 255;
}
