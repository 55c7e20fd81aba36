//! The original's own files, compiled unchanged, and the little that they lean on and that is not
//! among them: the list of messages, two error types, and bodies that are left behind.

// The original's style is its own affair.
#![allow(warnings)]

extern crate byteorder;
extern crate bytes;
extern crate thiserror;

include!(concat!(env!("OUT_DIR"), "/root.rs"));

pub mod messages {
    use bytes::Bytes;
    use std::io;
    use time::RtmpTimestamp;

    pub use self::message_payload::MessagePayload;

    include!(concat!(env!("OUT_DIR"), "/messages.rs"));

    /// All the messages that message_payload.rs takes apart; only SetChunkSize and UserControl are
    /// ever made here.
    pub enum RtmpMessage {
        Unknown { type_id: u8, data: Bytes },
        Abort { stream_id: u32 },
        Acknowledgement { sequence_number: u32 },
        Amf0Command { command_name: (), transaction_id: (), command_object: (), additional_arguments: () },
        Amf0Data { values: () },
        AudioData { data: Bytes },
        SetChunkSize { size: u32 },
        SetPeerBandwidth { size: u32, limit_type: PeerBandwidthLimitType },
        UserControl {
            event_type: UserControlEventType,
            stream_id: Option<u32>,
            buffer_length: Option<u32>,
            timestamp: Option<RtmpTimestamp>,
        },
        VideoData { data: Bytes },
        WindowAcknowledgement { size: u32 },
    }

    impl RtmpMessage {
        pub fn get_message_type_id(&self) -> u8 {
            match *self {
                RtmpMessage::SetChunkSize { .. } => 1,
                RtmpMessage::UserControl { .. } => 4,
                _ => unreachable!("no other message is made here"),
            }
        }
    }

    pub enum PeerBandwidthLimitType { Hard, Soft, Dynamic }

    #[derive(Clone, Copy, Debug, PartialEq)]
    pub enum UserControlEventType {
        StreamBegin,
        StreamEof,
        StreamDry,
        SetBufferLength,
        StreamIsRecorded,
        PingRequest,
        PingResponse,
        BufferEmpty,
        BufferReady,
    }

    #[derive(Debug, ::thiserror::Error)]
    pub enum MessageSerializationError {
        #[error("the chunk size is not valid")]
        InvalidChunkSize,
        #[error("{0}")]
        Io(#[from] io::Error),
    }

    #[derive(Debug, ::thiserror::Error)]
    pub enum MessageDeserializationError {
        #[error("the body is not valid")]
        InvalidMessageFormat,
        #[error("{0}")]
        Io(#[from] io::Error),
    }

    pub mod types {
        include!(concat!(env!("OUT_DIR"), "/types.rs"));

        /// A body that is left behind: message_payload.rs names it, and nothing here calls it.
        macro_rules! left_behind {
            ($name:ident, $($argument:ty),*) => {
                pub mod $name {
                    use bytes::Bytes;
                    use messages::{MessageDeserializationError, MessageSerializationError, RtmpMessage};

                    pub fn serialize($(_: $argument),*) -> Result<Bytes, MessageSerializationError> {
                        unreachable!("left behind")
                    }

                    pub fn deserialize(_: Bytes) -> Result<RtmpMessage, MessageDeserializationError> {
                        unreachable!("left behind")
                    }
                }
            };
        }

        left_behind!(acknowledgement, u32);
        left_behind!(amf0_command, (), (), (), ());
        left_behind!(amf0_data, ());
        left_behind!(audio_data, Bytes);
        left_behind!(video_data, Bytes);
        left_behind!(window_acknowledgement_size, u32);
    }
}
