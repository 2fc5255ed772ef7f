//! A request of each operation, by what it reads.

use super::Field::*;
use super::Request;

/// Of a valid object.
pub fn create(space: usize, cap_type: u64, rights: u32, object: u64) -> Request {
    in_space(1, space).with(Valid, 1).with(Type, cap_type).with(Rights, rights.into()).with(A, object)
}

pub fn delegate(space: usize, target: usize, rights: u32, token: u64) -> Request {
    in_space(2, space).with(Second, target as u64).with(Rights, rights.into()).with(A, token)
}

pub fn lookup(space: usize, token: u64) -> Request {
    in_space(3, space).with(A, token)
}

pub fn check(space: usize, rights: u32, token: u64) -> Request {
    in_space(4, space).with(Rights, rights.into()).with(A, token)
}

pub fn remove(space: usize, token: u64) -> Request {
    in_space(5, space).with(A, token)
}

pub fn delete(token: u64) -> Request {
    Request::of(6).with(A, token)
}

pub fn held_revoke(space: usize, token: u64, time: u64) -> Request {
    in_space(7, space).with(A, token).with(B, time)
}

pub fn clear(space: usize) -> Request {
    in_space(8, space)
}

pub fn copy(target: usize, source: usize) -> Request {
    in_space(9, target).with(Second, source as u64)
}

pub fn revoke_all(space: usize) -> Request {
    in_space(10, space)
}

pub fn insert(space: usize, rights: u32, token: u64, object: u64) -> Request {
    in_space(11, space).with(Rights, rights.into()).with(A, token).with(B, object)
}

pub fn space_made_create(space: usize, rights: u32, object: u64) -> Request {
    in_space(12, space).with(Rights, rights.into()).with(A, object)
}

pub fn space_revoke(space: usize, id: u64) -> Request {
    in_space(13, space).with(A, id)
}

pub fn drain(pid: u64) -> Request {
    Request::of(14).with(A, pid)
}

pub fn revoke_capability(token: u64, time: u64) -> Request {
    Request::of(15).with(A, token).with(B, time)
}

fn in_space(op: u64, space: usize) -> Request {
    Request::of(op).with(Space, space as u64)
}
