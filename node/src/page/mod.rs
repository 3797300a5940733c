//! The page of a node: requests and answers of HTTP, the page itself, metrics. Pure: what the node says goes in, bytes come out. The sockets are the
//! program's.

pub mod http;
pub mod metrics;
pub mod times;
pub mod view;
