/* Publishes each of its words as a job, and tries again while the queue is full. Usage: publisher HOST PORT JOB..
   gcc publisher.c -o publisher -lpaho-mqtt3c */
#include <stdio.h>
#include <string.h>
#include <unistd.h>
#include <MQTTClient.h>

static enum MQTTReasonCodes reason;

static void published(void *client, int token, int type, MQTTProperties *properties, enum MQTTReasonCodes code) {
    reason = code;
}

int main(int count, char **words) {
    MQTTClient client;
    MQTTClient_createOptions how = MQTTClient_createOptions_initializer;
    MQTTClient_connectOptions options = MQTTClient_connectOptions_initializer5;
    char address[256];
    if (count < 4) return 2;
    snprintf(address, sizeof address, "tcp://%s:%s", words[1], words[2]);
    how.MQTTVersion = MQTTVERSION_5;
    options.cleanstart = 1;
    MQTTClient_createWithOptions(&client, address, "", MQTTCLIENT_PERSISTENCE_NONE, NULL, &how);
    MQTTClient_setPublished(client, NULL, published);
    if (MQTTClient_connect5(client, &options, NULL, NULL).reasonCode != MQTTREASONCODE_SUCCESS) return 1;
    for (int at = 3; at < count; at++) {
        do {
            MQTTClient_deliveryToken token;
            MQTTResponse sent = MQTTClient_publish5(client, "jobs", strlen(words[at]), words[at], 1, 0, NULL, &token);
            if (sent.reasonCode != MQTTREASONCODE_SUCCESS || MQTTClient_waitForCompletion(client, token, 10000)) return 1;
            printf("0x%02x %s\n", reason, words[at]);
            sleep(reason == MQTTREASONCODE_QUOTA_EXCEEDED ? 1 : 0);
        } while (reason == MQTTREASONCODE_QUOTA_EXCEEDED); /* 0x97: the queue of the group is full, or the broker drains */
        if (reason != MQTTREASONCODE_SUCCESS) { /* 0x10: no group has this topic, and nobody has the job */
            fprintf(stderr, "%s was not accepted\n", words[at]);
            return 1;
        }
    }
    MQTTClient_disconnect5(client, 1000, MQTTREASONCODE_SUCCESS, NULL);
    MQTTClient_destroy(&client);
    return 0;
}
