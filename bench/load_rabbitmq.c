// Durable events a second of RabbitMQ: each connection publishes a batch of persistent messages to
// one quorum queue, and goes on once the broker has confirmed them all. Prints events a second, and
// the median and 99th percentile of a batch in ms.
//
//     load_rabbitmq PORT CONNECTIONS BATCH SECONDS
//
// It is built and called by bench/load_service.py, and wants librabbitmq.
#include <pthread.h>
#include <stdbool.h>
#include <stdint.h>
#include <stdio.h>
#include <stdlib.h>
#include <string.h>
#include <time.h>

#include <amqp.h>
#include <amqp_framing.h>
#include <amqp_tcp_socket.h>

#define QUEUE "load"

struct publisher {
    pthread_t thread;
    unsigned id;
    uint64_t batches;
    double *times;
    size_t room;
};

static int port;
static unsigned batch;
static double began, until;
// All publishers are connected, and the time begins.
static pthread_barrier_t connected, begun;

static double now(void) {
    struct timespec at;
    clock_gettime(CLOCK_MONOTONIC, &at);
    return (double)at.tv_sec + (double)at.tv_nsec / 1e9;
}

static void end(const char *why) {
    fprintf(stderr, "load_rabbitmq: %s\n", why);
    exit(1);
}

static amqp_connection_state_t connect_to_broker(void) {
    amqp_connection_state_t connection = amqp_new_connection();
    amqp_socket_t *socket = amqp_tcp_socket_new(connection);
    if (!socket || amqp_socket_open(socket, "127.0.0.1", port)) {
        end("no connection");
    }
    if (amqp_login(connection, "/", 0, 131072, 0, AMQP_SASL_METHOD_PLAIN, "guest", "guest")
            .reply_type != AMQP_RESPONSE_NORMAL) {
        end("no login");
    }
    amqp_channel_open(connection, 1);
    if (amqp_get_rpc_reply(connection).reply_type != AMQP_RESPONSE_NORMAL) {
        end("no channel");
    }
    return connection;
}

static void declare_queue(void) {
    amqp_connection_state_t connection = connect_to_broker();
    amqp_table_entry_t kind = {
        .key = amqp_cstring_bytes("x-queue-type"),
        .value = {.kind = AMQP_FIELD_KIND_UTF8, .value.bytes = amqp_cstring_bytes("quorum")}};
    amqp_table_t arguments = {.num_entries = 1, .entries = &kind};
    amqp_queue_delete(connection, 1, amqp_cstring_bytes(QUEUE), 0, 0);
    amqp_queue_declare(connection, 1, amqp_cstring_bytes(QUEUE), 0, 1, 0, 0, arguments);
    if (amqp_get_rpc_reply(connection).reply_type != AMQP_RESPONSE_NORMAL) {
        end("no queue");
    }
    amqp_destroy_connection(connection);
}

// Waits until the batch of messages that ends with `last` is confirmed, which the broker tells of
// one or of all up to one.
static void wait_for_confirms(amqp_connection_state_t connection, uint64_t last,
                              bool *is_confirmed) {
    uint64_t first = last - batch + 1, left = batch;
    memset(is_confirmed, 0, batch);
    while (left) {
        amqp_frame_t frame;
        amqp_maybe_release_buffers(connection);
        if (amqp_simple_wait_frame(connection, &frame) != AMQP_STATUS_OK ||
            frame.frame_type != AMQP_FRAME_METHOD ||
            frame.payload.method.id != AMQP_BASIC_ACK_METHOD) {
            end("a message wasn't confirmed");
        }
        const amqp_basic_ack_t *told = frame.payload.method.decoded;
        for (uint64_t tag = told->multiple ? first : told->delivery_tag; tag <= told->delivery_tag;
             tag++) {
            if (tag >= first && tag <= last && !is_confirmed[tag - first]) {
                is_confirmed[tag - first] = true;
                left--;
            }
        }
    }
}

static void *publish(void *given) {
    struct publisher *self = given;
    amqp_connection_state_t connection = connect_to_broker();
    amqp_confirm_select(connection, 1);
    amqp_basic_properties_t properties = {
        ._flags = AMQP_BASIC_CONTENT_TYPE_FLAG | AMQP_BASIC_DELIVERY_MODE_FLAG,
        .content_type = amqp_cstring_bytes("application/cloudevents+json"),
        .delivery_mode = 2};
    uint64_t number = 0;
    bool *is_confirmed = calloc(batch, sizeof *is_confirmed);
    if (!is_confirmed) {
        end("out of memory");
    }
    pthread_barrier_wait(&connected);
    pthread_barrier_wait(&begun);
    for (double start = now(); start < until; start = now()) {
        for (unsigned at = 0; at < batch; at++) {
            char event[512];
            number++;
            int length =
                snprintf(event, sizeof event,
                         "{\"specversion\":\"1.0\",\"id\":\"/load/%u-%012llu\",\"source\":\"/load/"
                         "%u\",\"type\":\"com.example.order.placed\","
                         "\"subject\":\"customer/"
                         "%06llu\",\"sequence\":\"%020llu\",\"time\":\"2024-02-29T10:00:%02lluZ\","
                         "\"attempt\":1,"
                         "\"datacontenttype\":\"application/"
                         "json\",\"data\":{\"lines\":[{\"sku\":\"%08llx\",\"count\":%llu}]}}",
                         self->id, (unsigned long long)number, self->id,
                         (unsigned long long)(number * 7919 % 5000), (unsigned long long)number,
                         (unsigned long long)(number % 60),
                         (unsigned long long)(number * 40503 % 4294967296),
                         (unsigned long long)(number % 19 + 1));
            amqp_bytes_t body = {.len = (size_t)length, .bytes = event};
            if (amqp_basic_publish(connection, 1, amqp_empty_bytes, amqp_cstring_bytes(QUEUE), 0, 0,
                                   &properties, body) != AMQP_STATUS_OK) {
                end("a message wasn't published");
            }
        }
        wait_for_confirms(connection, number, is_confirmed);
        if (self->batches == self->room) {
            self->room = self->room ? 2 * self->room : 1024;
            self->times = realloc(self->times, self->room * sizeof *self->times);
            if (!self->times) {
                end("out of memory");
            }
        }
        self->times[self->batches++] = (now() - start) * 1000;
    }
    amqp_destroy_connection(connection);
    return NULL;
}

static int compare_times(const void *first, const void *second) {
    double a = *(const double *)first, b = *(const double *)second;
    return (a > b) - (a < b);
}

int main(int count, char **words) {
    if (count != 5) {
        end("PORT CONNECTIONS BATCH SECONDS");
    }
    port = atoi(words[1]);
    size_t connections = (size_t)atoi(words[2]), all = 0, at = 0;
    batch = (unsigned)atoi(words[3]);
    declare_queue();
    struct publisher *publishers = calloc(connections, sizeof *publishers);
    pthread_barrier_init(&connected, NULL, (unsigned)connections + 1);
    pthread_barrier_init(&begun, NULL, (unsigned)connections + 1);
    for (size_t i = 0; publishers && i < connections; i++) {
        publishers[i].id = (unsigned)i;
        if (pthread_create(&publishers[i].thread, NULL, publish, &publishers[i])) {
            end("no thread");
        }
    }
    pthread_barrier_wait(&connected);
    began = now();
    until = began + atof(words[4]);
    pthread_barrier_wait(&begun);
    for (size_t i = 0; publishers && i < connections; i++) {
        pthread_join(publishers[i].thread, NULL);
        all += publishers[i].batches;
    }
    double took = now() - began;
    double *times = calloc(all, sizeof *times);
    if (!publishers || !times) {
        end("nothing was published");
    }
    for (size_t i = 0; i < connections; i++) {
        memcpy(times + at, publishers[i].times, publishers[i].batches * sizeof *times);
        at += publishers[i].batches;
    }
    qsort(times, all, sizeof *times, compare_times);
    printf("%.0f %.2f %.2f\n", (double)all * batch / took, times[all / 2],
           times[(all - 1) * 99 / 100]);
    return 0;
}
