<?php
function f(): void {
return; }
