head
