"""The error codes of the coordinator (Kafka protocol guide, "Error Codes"), and the text of a heartbeat's reply with one, which is ours:
`tools/check-model` compares them with crates/group_types/specs/Code.antt."""

NAMES = {
    0: "NO_ERROR",
    3: "UNKNOWN_TOPIC_OR_PARTITION",
    12: "OFFSET_METADATA_TOO_LARGE",
    15: "COORDINATOR_NOT_AVAILABLE",
    25: "UNKNOWN_MEMBER_ID",
    42: "INVALID_REQUEST",
    69: "GROUP_ID_NOT_FOUND",
    81: "GROUP_MAX_SIZE_REACHED",
    110: "FENCED_MEMBER_EPOCH",
    111: "UNRELEASED_INSTANCE_ID",
    112: "UNSUPPORTED_ASSIGNOR",
    113: "STALE_MEMBER_EPOCH",
}
TEXTS = {
    15: "coordinator not available",
    25: "unknown member",
    42: "invalid request",
    81: "group is full",
    110: "fenced member epoch",
    111: "instance id in use",
    112: "unknown assignor",
}
