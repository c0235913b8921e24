/* Starts the mock cluster of librdkafka, whose group coordinator is another implementation of KIP-848, and stays until a signal.
 *
 *     gcc -o mock mock.c -lrdkafka && ./mock
 *
 * Prints HOST:PORT. The session timeout is 6 s, and the first rebalance of a group doesn't wait for more members. */

#include <librdkafka/rdkafka.h>
#include <librdkafka/rdkafka_mock.h>
#include <stdio.h>
#include <unistd.h>

int main(void) {
    char why[512];
    rd_kafka_t *client = rd_kafka_new(RD_KAFKA_PRODUCER, rd_kafka_conf_new(), why, sizeof why);
    if (client == NULL) {
        fprintf(stderr, "mock: %s\n", why);
        return 1;
    }
    rd_kafka_mock_cluster_t *cluster = rd_kafka_mock_cluster_new(client, 1);
    if (cluster == NULL) {
        fprintf(stderr, "mock: no cluster\n");
        return 1;
    }
    rd_kafka_mock_topic_create(cluster, "orders", 4, 1);
    rd_kafka_mock_topic_create(cluster, "bills", 3, 1);
    rd_kafka_mock_topic_create(cluster, "carts", 4, 1);
    rd_kafka_mock_group_initial_rebalance_delay_ms(cluster, 0);
    rd_kafka_mock_set_group_consumer_heartbeat_interval_ms(cluster, 1000);
    rd_kafka_mock_set_group_consumer_session_timeout_ms(cluster, 6000);
    printf("%s\n", rd_kafka_mock_cluster_bootstraps(cluster));
    fflush(stdout);
    pause();
    return 0;
}
