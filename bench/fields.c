// How long libmbim takes for the answers and lists in these files: of each its path, and the nanoseconds that
// reading and writing it take at best. Only of a list of subscriptions libmbim offers the writing.
#include <libmbim-glib.h>
#include <stdio.h>
#include <stdlib.h>
#include <string.h>
#include <time.h>

enum { RUNS = 200, HEAD = 48 };

static const guint8 basic_connect[16] = {0xA2, 0x89, 0xCC, 0x33, 0xBC, 0xBB, 0x8B, 0x4F, 0xB6, 0xB0, 0x13, 0x3E, 0xC2, 0xAA, 0xE6, 0xDF};

static gint64 nanoseconds(void) {
    struct timespec now;
    clock_gettime(CLOCK_MONOTONIC, &now);
    return now.tv_sec * 1000000000LL + now.tv_nsec;
}

static void fail(const char *what, GError *error) {
    fprintf(stderr, "%s: %s\n", what, error ? error->message : "fails");
    exit(70);
}

static void put(guint8 *place, guint32 number) {
    number = GUINT32_TO_LE(number);
    memcpy(place, &number, 4);
}

// The answer to a command, with the buffer in this file.
static MbimMessage *message_with(const char *path) {
    gchar *buffer;
    gsize length;
    GError *error = NULL;
    if (!g_file_get_contents(path, &buffer, &length, &error)) fail(path, error);
    guint8 *bytes = g_malloc0(HEAD + length);
    put(bytes, 0x80000003);
    put(bytes + 4, HEAD + length);
    put(bytes + 8, 1);
    put(bytes + 12, 1);
    memcpy(bytes + 20, basic_connect, 16);
    put(bytes + 44, length);
    memcpy(bytes + HEAD, buffer, length);
    MbimMessage *message = mbim_message_new(bytes, HEAD + length);
    g_free(buffer);
    g_free(bytes);
    return message;
}

int main(int count, char **paths) {
    for (int at = 1; at < count; at++) {
        const char *path = paths[at];
        MbimMessage *message = message_with(path);
        gint64 reading = G_MAXINT64, writing = G_MAXINT64;
        for (int run = 0; run < RUNS; run++) {
            GError *error = NULL;
            guint32 parts, other;
            gboolean read;
            gint64 start = nanoseconds();
            if (strstr(path, "services")) {
                MbimDeviceServiceElementArray *services;
                read = mbim_message_device_services_response_parse(message, &parts, &other, &services, &error);
                reading = MIN(reading, nanoseconds() - start);
                if (read) mbim_device_service_element_array_free(services);
            } else if (strstr(path, "subscriptions")) {
                MbimEventEntryArray *events;
                read = mbim_message_device_service_subscribe_list_response_parse(message, &parts, &events, &error);
                reading = MIN(reading, nanoseconds() - start);
                if (!read) fail(path, error);
                start = nanoseconds();
                MbimMessage *list = mbim_message_device_service_subscribe_list_set_new(parts, (const MbimEventEntry *const *)events, &error);
                writing = MIN(writing, nanoseconds() - start);
                if (!list) fail(path, error);
                mbim_message_unref(list);
                mbim_event_entry_array_free(events);
            } else if (strstr(path, "phonebook")) {
                MbimPhonebookEntryArray *entries;
                read = mbim_message_phonebook_read_response_parse(message, &parts, &entries, &error);
                reading = MIN(reading, nanoseconds() - start);
                if (read) mbim_phonebook_entry_array_free(entries);
            } else {
                MbimSmsFormat format;
                MbimSmsPduReadRecordArray *pdus;
                MbimSmsCdmaReadRecordArray *cdmas;
                read = mbim_message_sms_read_response_parse(message, &format, &parts, &pdus, &cdmas, &error);
                reading = MIN(reading, nanoseconds() - start);
                if (read) {
                    mbim_sms_pdu_read_record_array_free(pdus);
                    mbim_sms_cdma_read_record_array_free(cdmas);
                }
            }
            if (!read) fail(path, error);
        }
        printf("%s %" G_GINT64_FORMAT " %" G_GINT64_FORMAT "\n", path, reading, writing == G_MAXINT64 ? 0 : writing);
        mbim_message_unref(message);
    }
    return 0;
}
